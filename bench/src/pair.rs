//! Two posts that hold the same, the library's and the source's.

use crate::library::Library;
use post::{
    Areas, Call, Dir, Envelope, FileRecord, Held, NewOwn, Prefix, Sizes, Tag, Verification, WindowRow, encode_file,
    encode_window,
};
use source::raw;
use source::timed::Timed;

/// The lengths of ciphertexts, in turn; the last row has the first of them.
const LENGTHS: [usize; 7] = [2_064, 48, 80, 144, 272, 528, 1_040];
/// Nothing has expired at the minute of the calls; half of everything has at that of maintenance.
const MINUTE: u32 = 100;
pub const EARLY: u32 = 120;
const LATE: u32 = 5_000;
/// What an unverified depositor may have.
const QUOTA: usize = 16;

/// How much a post holds.
#[derive(Clone, Copy)]
pub struct Shape {
    pub contacts: usize,
    pub carried: usize,
    pub own: usize,
    pub tombstones: usize,
    pub listed: usize,
    pub window: usize,
    pub bad_tags: usize,
    /// Whether the last sixteen carried rows are those of the peer, who is not verified.
    pub at_quota: bool,
    /// Whether the last tombstones have the tags of the last window rows; else they have their prefixes alone.
    pub delivered: bool,
}

impl Shape {
    /// `rows` carried and own ones, and of the rest as much as at 256 of them would be all; no window.
    pub fn of(rows: usize) -> Self {
        Self {
            contacts: rows,
            carried: rows,
            own: rows,
            tombstones: 4 * rows,
            listed: 2 * rows,
            window: 0,
            bad_tags: rows,
            at_quota: false,
            delivered: false,
        }
    }

    /// With 5,000 window rows at 256.
    pub fn with_window(rows: usize) -> Self {
        Self { window: 5_000 * rows / 256, ..Self::of(rows) }
    }

    /// The same, and the window rows whose prefixes are listed have tombstones.
    pub fn with_delivered(rows: usize) -> Self {
        Self { delivered: true, ..Self::with_window(rows) }
    }
}

pub struct Pair {
    pub library: Library,
    pub source: Timed,
    pub shape: Shape,
    pub areas: Areas,
    pub window: Vec<WindowRow>,
    pub held: Vec<(u64, Held)>,
    pub own: Vec<NewOwn>,
}

fn mixed(number: u64) -> u64 {
    let mut z = number.wrapping_mul(0x9e37_79b9_7f4a_7c15);
    z = (z ^ (z >> 30)).wrapping_mul(0xbf58_476d_1ce4_e5b9);
    z = (z ^ (z >> 27)).wrapping_mul(0x94d0_49bb_1331_11eb);
    z ^ (z >> 31)
}

/// Sixteen bytes that look random, of their own for each kind and number.
pub fn sixteen(kind: u8, number: usize) -> Tag {
    let seed = (u64::from(kind) << 32) + number as u64;
    let mut bytes = [0; 16];
    bytes[..8].copy_from_slice(&mixed(2 * seed).to_be_bytes());
    bytes[8..].copy_from_slice(&mixed(2 * seed + 1).to_be_bytes());
    bytes
}

fn expiry(number: usize) -> u32 {
    if number.is_multiple_of(2) { EARLY } else { LATE }
}

/// An envelope with its secret's commitment.
pub fn envelope(number: usize, length: usize) -> Envelope {
    Envelope {
        tag: sixteen(b'C', number),
        commitment: raw::commitment(&sixteen(b'S', number)),
        expiry: expiry(number),
        copies: 4,
        ciphertext: vec![number as u8; length].into(),
    }
}

/// Rows of contacts in their order, with the tags of `route_tag`.
fn window_rows(shape: &Shape) -> Vec<WindowRow> {
    let row = |number: usize| {
        let contact = (number * shape.contacts / shape.window) as u64 + 1;
        let index = number as u32;
        WindowRow {
            contact,
            dir: b'I',
            generation: 0,
            index,
            tag: raw::route_tag(&raw::route_key_of(contact), b'I', 0, index),
        }
    };
    (0..shape.window).map(row).collect()
}

impl Shape {
    fn carried_row(&self, number: usize) -> Held {
        let from_end = self.carried - 1 - number;
        let depositor =
            if self.at_quota && from_end < QUOTA { self.contacts } else { number % (self.contacts - 1) + 1 };
        Held::Carried { depositor: depositor as u64, envelope: envelope(number, LENGTHS[from_end % LENGTHS.len()]) }
    }

    /// The last ones share their prefixes, or whole tags, with the last window rows. The first has the least expiry.
    fn tombstone(&self, number: usize, window: &[WindowRow]) -> Held {
        let mut tag = sixteen(b'T', number);
        let from_end = self.tombstones - number;
        if from_end <= self.listed.min(window.len()) {
            let shared = if self.delivered { 16 } else { 8 };
            tag[..shared].copy_from_slice(&window[window.len() - from_end].tag[..shared]);
        }
        Held::Tombstone {
            tag,
            secret: sixteen(b'S', number),
            expiry: if number == 0 { EARLY - 1 } else { expiry(number) },
        }
    }

    /// By slot, four tombstones before each carried row.
    fn held_rows(&self, window: &[WindowRow]) -> Vec<(u64, Held)> {
        let mut tombstones = (0..self.tombstones).map(|number| self.tombstone(number, window));
        let mut rows = Vec::new();
        for number in 0..self.carried {
            rows.extend(tombstones.by_ref().take(4));
            rows.push(self.carried_row(number));
        }
        rows.extend(tombstones);
        (0..).zip(rows).collect()
    }

    /// None of them for the peer, who is the last contact.
    pub fn own_rows(&self) -> Vec<NewOwn> {
        let row = |number: usize| {
            let contact = (number % (self.contacts - 1)) as u64 + 1;
            new_own(contact, number, LENGTHS[number % LENGTHS.len()])
        };
        (0..self.own).map(row).collect()
    }
}

pub fn new_own(contact: u64, number: usize, length: usize) -> NewOwn {
    NewOwn {
        contact,
        message: number as u32 + 1,
        route_key: raw::route_key_of(contact),
        dir: Dir::R,
        generation: 0,
        index: number as u32,
        secret: sixteen(b'O', number),
        ciphertext: vec![number as u8; length].into(),
    }
}

impl Pair {
    pub fn new(shape: Shape) -> Self {
        let window = window_rows(&shape);
        let sizes = Sizes { carried_cells: 256, own_cells: 256, tombstone_rows: 1_024, bad_rows: 512, exchanges: 1 };
        let mut pair = Self {
            library: Library::new(),
            source: Timed::default(),
            areas: Areas::enough(&sizes),
            held: shape.held_rows(&window),
            own: shape.own_rows(),
            window,
            shape,
        };
        pair.add_contacts();
        pair.hold_own();
        pair.hold();
        pair.add_bad_tags();
        pair.source.window(&pair.window);
        pair.keep();
        pair
    }

    /// The last contact, for whom none of the own rows is.
    pub fn peer(&self) -> u64 {
        self.shape.contacts as u64
    }

    fn add_contacts(&mut self) {
        for id in 1..=self.peer() {
            let unverified = self.shape.at_quota && id == self.peer();
            let verification = if unverified { Verification::Unverified } else { Verification::Verified };
            self.library.perform(&Call::Contact { id, verification });
            self.source.contact(id, verification);
        }
    }

    fn setting(&mut self, lifetime: u16) {
        self.library.perform(&Call::Setting { enabled: true, copies: 6, lifetime });
        self.source.setting(6, lifetime);
    }

    fn minute(&mut self, minute: u32) {
        let seconds = u64::from(minute) * 60;
        self.library.perform(&Call::Clock { seconds });
        self.source.clock(seconds);
    }

    /// Half of everything has expired.
    pub fn set_late(&mut self) {
        self.minute(EARLY);
        self.keep();
    }

    fn make_own(&mut self, is_made: impl Fn(usize) -> bool) {
        for (number, new) in self.own.iter().enumerate() {
            if is_made(number) {
                self.library.perform(&Call::OwnEnvelope(new.clone()));
                self.source.hold_own(new);
            }
        }
    }

    /// A quarter of them expires early and was renewed, a quarter expires early, and half late.
    fn hold_own(&mut self) {
        self.setting(60);
        self.make_own(|number| number % 4 == 0);
        self.minute(EARLY - 60);
        self.library.perform(&Call::Maintenance { areas: self.areas });
        self.source.maintain();
        self.make_own(|number| number % 4 == 2);
        self.setting(10_080);
        self.make_own(|number| number % 2 == 1);
        self.minute(MINUTE);
    }

    fn hold(&mut self) {
        for (slot, held) in &self.held {
            self.source.hold(*slot, held);
        }
        let mut records = vec![FileRecord::NextSlot(self.held.len() as u64)];
        records.extend(self.held.iter().map(|(slot, held)| {
            let kind = if held.is_carried() { b'C' } else { b'T' };
            FileRecord::Row(kind, *slot, raw::blob(held))
        }));
        self.library.perform(&Call::Load { file: encode_file(&records) });
    }

    /// Library areas have them by the call that reports a failure, which says malformed.
    fn add_bad_tags(&mut self) {
        for number in 0..self.shape.bad_tags {
            let (peer, tag) = (self.peer(), sixteen(b'B', number));
            self.library.run(&Call::Failed { peer, tag });
            self.source.bad_tag(peer, tag);
        }
    }

    pub fn keep(&mut self) {
        self.library.keep();
        self.source.keep();
    }

    /// An exchange with the peer that has had these lists.
    pub fn exchange(&mut self, lists: Vec<Vec<Prefix>>) {
        let (areas, peer) = (self.areas, self.peer());
        self.library.perform(&Call::FreshExchange { areas, exchange: 0, peer });
        for list in &lists {
            self.library.perform(&Call::Inventory {
                areas,
                window: encode_window(&self.window),
                exchange: 0,
                peer,
                prefixes: list.concat().into(),
            });
        }
        self.source.exchange(lists);
        self.keep();
    }

    pub fn carried(&self) -> impl DoubleEndedIterator<Item = (u64, &Envelope)> {
        self.held.iter().filter_map(|(slot, held)| match held {
            Held::Carried { envelope, .. } => Some((*slot, envelope)),
            Held::Tombstone { .. } => None,
        })
    }

    pub fn tombstones(&self) -> impl DoubleEndedIterator<Item = (u64, &Tag)> {
        let tombstones = self.held.iter().filter(|(_, held)| !held.is_carried());
        tombstones.map(|(slot, held)| (*slot, held.tag()))
    }

    /// The own row that stands last: by contact as added and message number.
    pub fn last_own(&self) -> &NewOwn {
        self.own.iter().max_by_key(|new| (new.contact, new.message)).expect("an own row")
    }

    /// The prefixes of the last tombstones, which are also those of the last window rows.
    pub fn listed(&self) -> Vec<Prefix> {
        let others = self.shape.tombstones - self.shape.listed;
        self.tombstones().skip(others).map(|(_, tag)| post::array(tag, 0)).collect()
    }
}

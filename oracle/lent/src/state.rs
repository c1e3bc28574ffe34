//! `view`, `step` and `store` of the model: the rows of the areas, what a call answers and changes, and the change written.

use crate::fields::{put_flag, put_number, put_setting};
use crate::rows::{BadTag, Carried, ContactRow, Offer, Own, Row, Tombstone, table};
use crate::{Areas, CELL, Device, Exchange, Reading, Session};
use post::{Call, Prefix, Setting};

/// The areas as rows.
pub struct State<'a> {
    pub clock: u64,
    pub setting: Setting,
    pub contacts: Vec<ContactRow>,
    pub own: Vec<Own>,
    pub carried: Vec<Carried>,
    pub tombstones: Vec<Tombstone>,
    pub bad_tags: Vec<BadTag>,
    pub next_slot: u64,
    pub own_cells: &'a [u8],
    pub carried_cells: &'a [u8],
    /// As the device says; it may be more than there are rows.
    pub said_tombstones: usize,
    /// All of an area, the rows behind the count too.
    pub tombstone_area: &'a [u8],
    pub carried_area: &'a [u8],
    pub reading: Reading,
    pub tombstone_rows: usize,
    pub bad_rows: usize,
    pub exchange: Exchange,
    pub listed: Vec<Prefix>,
    pub offered: Vec<Offer>,
}

/// The lengths of the areas that are lent with a call.
pub type Lent = post::Areas;

#[derive(Debug, Clone, PartialEq, Eq)]
pub enum Said {
    Refused(u8),
    Malformed,
    Done,
    /// The end of an inventory: for how many rows the tombstones were searched.
    Ended {
        searched: usize,
    },
    Ours {
        contact: u64,
        generation: u8,
        index: u32,
    },
    /// Fetch: how long the ciphertext is; the reply names its cell.
    Found {
        length: usize,
    },
    /// Fetch: nothing; row blob: no such row.
    Missing,
    Own(Own),
    NoEnvelope,
    /// Rows or bytes of the answer area.
    Wrote(usize),
    Row(Option<post::Held>),
}

/// What a call says, and the rows and bytes that it writes to answer areas.
#[derive(Debug, Clone, PartialEq, Eq)]
pub struct Outcome {
    pub said: Said,
    pub replies: Vec<[u8; 40]>,
    pub actions: Vec<[u8; 13]>,
    pub bytes: Vec<u8>,
}

impl Outcome {
    pub fn only(said: Said) -> Self {
        Self {
            said,
            replies: Vec::new(),
            actions: Vec::new(),
            bytes: Vec::new(),
        }
    }

    pub fn wrote(count: usize, bytes: Vec<u8>) -> Self {
        Self {
            bytes,
            ..Self::only(Said::Wrote(count))
        }
    }

    pub fn actions(actions: Vec<[u8; 13]>) -> Self {
        Self {
            actions,
            ..Self::only(Said::Done)
        }
    }
}

/// What becomes of each part; `None` keeps it.
#[derive(Default)]
pub struct Change {
    pub clock: Option<u64>,
    pub setting: Option<Setting>,
    pub contacts: Option<Vec<ContactRow>>,
    pub own: Option<Vec<Own>>,
    pub carried: Option<Vec<Carried>>,
    pub tombstones: Option<Vec<Tombstone>>,
    pub bad_tags: Option<Vec<BadTag>>,
    pub next_slot: Option<u64>,
    pub own_cell: Option<(u16, Vec<u8>)>,
    pub carried_cell: Vec<(u16, Vec<u8>)>,
    /// Whom the exchange is opened for.
    pub peer: Option<u64>,
    pub complete: Option<bool>,
    pub listed: Option<Vec<Prefix>>,
    pub offered: Option<Vec<Offer>>,
}

pub type Step = (Outcome, Change);

pub fn refused(number: u8) -> Step {
    (Outcome::only(Said::Refused(number)), Change::default())
}

pub fn said(said: Said) -> Step {
    (Outcome::only(said), Change::default())
}

impl Session {
    /// The exchange, its listed prefixes and its offers; counts above 512 are 512.
    pub fn view(&self) -> (Exchange, Vec<Prefix>, Vec<Offer>) {
        let exchange = Exchange::read(&self.exchange);
        let listed = table(&self.prefixes, exchange.listed.min(512));
        let offered = table(&self.offers, exchange.offered.min(512));
        (exchange, listed, offered)
    }

    fn store(&mut self, change: &Change) {
        let exchange = &mut self.exchange;
        put_flag(exchange, Exchange::OPEN, change.peer.map(|_| true));
        put_number(exchange, Exchange::PEER, change.peer);
        put_flag(exchange, Exchange::COMPLETE, change.complete);
        put_rows(&mut self.prefixes, exchange, Exchange::LISTED, &change.listed);
        put_rows(&mut self.offers, exchange, Exchange::OFFERED, &change.offered);
    }
}

impl<'a> State<'a> {
    /// With the exchange of this place, and the areas read in this way.
    pub fn view(areas: &'a Areas, session: usize, reading: Reading) -> Self {
        let device = Device::read(&areas.device);
        let (exchange, listed, offered) = match areas.sessions.get(session) {
            Some(lent) => lent.view(),
            None => (Exchange::default(), Vec::new(), Vec::new()),
        };
        Self {
            clock: device.clock,
            setting: device.setting,
            contacts: table(&areas.contacts, device.contacts),
            own: table(&areas.own, device.own),
            carried: table(&areas.carried, device.carried),
            tombstones: table(&areas.tombstones, device.tombstones),
            bad_tags: table(&areas.bad_tags, device.bad_tags),
            next_slot: device.next_slot,
            own_cells: &areas.own_cells,
            carried_cells: &areas.carried_cells,
            said_tombstones: device.tombstones,
            tombstone_area: &areas.tombstones,
            carried_area: &areas.carried,
            reading,
            tombstone_rows: areas.tombstones.len() / Tombstone::WIDTH,
            bad_rows: areas.bad_tags.len() / BadTag::WIDTH,
            exchange,
            listed,
            offered,
        }
    }

    pub fn own_ciphertext(&self, row: &Own) -> &[u8] {
        self.reading.ciphertext(self.own_cells, row.cell, row.len)
    }

    pub fn carried_ciphertext(&self, row: &Carried) -> &[u8] {
        self.reading.ciphertext(self.carried_cells, row.cell, row.len)
    }

    pub fn minute(&self) -> u32 {
        (self.clock / 60).min(u64::from(u32::MAX)) as u32
    }

    pub fn lifetime_end(&self) -> u32 {
        self.minute().saturating_add(u32::from(self.setting.lifetime))
    }

    pub fn knows(&self, id: u64) -> bool {
        self.contacts.iter().any(|row| row.id == id)
    }

    pub fn short_actions(&self, lent: &Lent) -> bool {
        lent.actions < 13 * (512 + self.tombstone_rows)
    }

    fn step(&self, call: &Call) -> Step {
        match call {
            Call::Contact { .. } | Call::Setting { .. } | Call::Clock { .. } | Call::FreshExchange { .. } => {
                self.set(call)
            }
            Call::Envelope {
                areas,
                window,
                peer,
                envelope,
            } => self.envelope(areas, window, *peer, envelope),
            Call::Inventory {
                areas,
                window,
                peer,
                prefixes,
                ..
            } => self.inventory(areas, window, *peer, prefixes),
            Call::Fetch { areas, peer, tag } => self.fetch(areas, *peer, tag),
            Call::CustodyCode {
                areas, peer, tag, code, ..
            } => self.custody_code(areas, *peer, tag, *code),
            Call::Tomb {
                areas,
                peer,
                tag,
                secret,
            } => self.tomb(areas, *peer, *tag, *secret),
            Call::Opened {
                areas,
                peer,
                tag,
                secret,
                expiry,
            } => self.opened(areas, *peer, *tag, *secret, *expiry),
            Call::Failed { peer, tag } => self.failed(*peer, *tag),
            Call::StoredTombstone {
                areas,
                tag,
                secret,
                expiry,
            } => self.stored(areas, *tag, *secret, *expiry),
            Call::OwnEnvelope(new) => self.own_envelope(new),
            Call::Maintenance { areas } => self.maintenance(areas),
            Call::InventoryOfOurs { areas, peer } => self.inventory_of_ours(areas, *peer),
            Call::Window { areas, skipped, chains } => self.window(areas, skipped, chains),
            Call::RowBlob { areas, slot } => self.row_blob(areas, *slot),
            Call::RowRead { blob } => said(Said::Row(crate::saved::read(blob))),
            Call::Save { areas } => self.save(areas),
            Call::Load { file } => self.load(file),
            Call::Page { areas, number } => self.page(areas, *number),
        }
    }
}

/// Rows at the front of an area, and what stood behind as it was; their count goes where the device or the exchange has it.
fn put_rows<R: Row>(area: &mut [u8], counts: &mut [u8], at: usize, rows: &Option<Vec<R>>) {
    if let Some(rows) = rows {
        put_number(counts, at, Some(rows.len() as u64));
        for (place, row) in rows.iter().enumerate() {
            area[place * R::WIDTH..(place + 1) * R::WIDTH].copy_from_slice(&row.write());
        }
    }
}

fn put_cell(cells: &mut [u8], cell: u16, bytes: &[u8]) {
    let at = usize::from(cell) * CELL;
    cells[at..at + bytes.len()].copy_from_slice(bytes);
}

impl Areas {
    pub(crate) fn store(&mut self, session: usize, change: &Change) {
        let device = &mut self.device;
        put_number(device, Device::CLOCK, change.clock);
        put_setting(device, change.setting);
        put_number(device, Device::NEXT_SLOT, change.next_slot);
        put_rows(&mut self.contacts, device, Device::CONTACTS, &change.contacts);
        put_rows(&mut self.own, device, Device::OWN, &change.own);
        put_rows(&mut self.carried, device, Device::CARRIED, &change.carried);
        put_rows(&mut self.tombstones, device, Device::TOMBSTONES, &change.tombstones);
        put_rows(&mut self.bad_tags, device, Device::BAD_TAGS, &change.bad_tags);
        if let Some((cell, bytes)) = &change.own_cell {
            put_cell(&mut self.own_cells, *cell, bytes);
        }
        for (cell, bytes) in &change.carried_cell {
            put_cell(&mut self.carried_cells, *cell, bytes);
        }
        if let Some(lent) = self.sessions.get_mut(session) {
            lent.store(change);
        }
    }
}

/// The place of the exchange that is lent with a call; a place where none is for the others.
fn session_of(call: &Call) -> usize {
    match call {
        Call::FreshExchange { exchange, .. }
        | Call::Inventory { exchange, .. }
        | Call::CustodyCode { exchange, .. } => *exchange,
        _ => usize::MAX,
    }
}

/// The call performed on the areas.
pub fn performed(areas: &mut Areas, call: &Call) -> Outcome {
    performed_with(Reading::RIGHT, areas, call)
}

/// With areas that are read in this way.
pub fn performed_with(reading: Reading, areas: &mut Areas, call: &Call) -> Outcome {
    let session = session_of(call);
    let (outcome, change) = State::view(areas, session, reading).step(call);
    areas.store(session, &change);
    areas.replies[..outcome.replies.len() * 40].copy_from_slice(outcome.replies.as_flattened());
    areas.actions[..outcome.actions.len() * 13].copy_from_slice(outcome.actions.as_flattened());
    areas.answer[..outcome.bytes.len()].copy_from_slice(&outcome.bytes);
    if let Said::Own(row) = &outcome.said {
        areas.row.copy_from_slice(&row.write());
    }
    outcome
}

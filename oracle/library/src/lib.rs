//! The proved library as a post: every area lies between pages that nobody may touch, and after each call every byte of every
//! area and the answer are held against the third statement's.

mod boundary;
mod calls;
mod guarded;
mod tags;
mod wrong;

pub use boundary::{wrong_arguments, wrong_flags, wrong_fresh_device};
pub use guarded::watch;
pub use tags::Tags;
pub use wrong::Spoiled;

use goosetable_sys as sys;
use guarded::Guarded;
use lent::{Areas, Device, Outcome, decoded, performed};
use post::{Answer, Call, Post, Sizes, State};
use std::borrow::Cow;

struct Session {
    exchange: Guarded,
    prefixes: Guarded,
    offers: Guarded,
}

/// Bytes that a call only reads.
struct Input {
    area: Guarded,
    bytes: Vec<u8>,
}

impl Input {
    fn set(&mut self, bytes: &[u8]) {
        self.bytes = bytes.to_vec();
        self.area.set(bytes);
    }
}

/// The areas of a post, but its sessions.
struct Lent {
    device: Guarded,
    contacts: Guarded,
    own: Guarded,
    carried: Guarded,
    tombstones: Guarded,
    bad_tags: Guarded,
    own_cells: Guarded,
    carried_cells: Guarded,
    replies: Guarded,
    actions: Guarded,
}

impl Lent {
    fn areas(&mut self) -> sys::Areas<'_> {
        sys::Areas {
            device: self.device.array_mut(),
            contacts: self.contacts.array_mut(),
            own: self.own.array_mut(),
            carried: self.carried.array_mut(),
            tombstones: self.tombstones.bytes_mut(),
            bad_tags: self.bad_tags.bytes_mut(),
            own_cells: self.own_cells.bytes_mut(),
            carried_cells: self.carried_cells.bytes_mut(),
            replies: self.replies.bytes_mut(),
            actions: self.actions.bytes_mut(),
        }
    }
}

impl Session {
    fn areas(&mut self) -> sys::Session<'_> {
        sys::Session {
            exchange: self.exchange.array_mut(),
            prefixes: self.prefixes.bytes_mut(),
            offers: self.offers.bytes_mut(),
        }
    }
}

pub struct Library {
    /// What the areas must hold.
    expected: Areas,
    lent: Lent,
    sessions: Vec<Session>,
    answer: Guarded,
    row: Guarded,
    /// Tags, window rows, ciphertexts and the like.
    inputs: [Input; 4],
    spoiled: Option<Spoiled>,
    /// Where the last call left something else than expected.
    differences: Vec<String>,
}

/// The first byte in which two areas differ.
fn different(name: &str, real: &Guarded, expected: &[u8], found: &mut Vec<String>) {
    let bytes = real.bytes();
    let expected = &expected[..bytes.len().min(expected.len())];
    if bytes != expected {
        let place = bytes.iter().zip(expected).position(|(one, two)| one != two);
        let what = match place {
            Some(place) => format!("byte {place}: library {}, expected {}", bytes[place], expected[place]),
            None => "another length".into(),
        };
        found.push(format!("{name}, {what}"));
    }
    if !real.zone_stayed() {
        found.push(format!("{name}: a byte beside the area"));
    }
}

impl Library {
    /// Areas that hold anything. They stand against the first or the last of their pages.
    pub fn of(areas: Areas, first: bool) -> Self {
        let guarded = |bytes: &[u8]| Guarded::of(bytes, first);
        let session = |session: &lent::Session| Session {
            exchange: guarded(&session.exchange),
            prefixes: guarded(&session.prefixes),
            offers: guarded(&session.offers),
        };
        let lent = Lent {
            device: guarded(&areas.device),
            contacts: guarded(&areas.contacts),
            own: guarded(&areas.own),
            carried: guarded(&areas.carried),
            tombstones: guarded(&areas.tombstones),
            bad_tags: guarded(&areas.bad_tags),
            own_cells: guarded(&areas.own_cells),
            carried_cells: guarded(&areas.carried_cells),
            replies: guarded(&areas.replies),
            actions: guarded(&areas.actions),
        };
        Self {
            lent,
            sessions: areas.sessions.iter().map(session).collect(),
            answer: guarded(&areas.answer),
            row: guarded(&areas.row),
            inputs: [(); 4].map(|()| Input {
                area: guarded(&[]),
                bytes: Vec::new(),
            }),
            spoiled: None,
            differences: Vec::new(),
            expected: areas,
        }
    }

    /// A fresh post. Its host writes another byte for enabled, which says the same.
    pub fn new(sizes: Sizes) -> Self {
        let mut library = Self::of(Areas::untouched(&sizes), sizes.own_cells.is_multiple_of(2));
        library.fresh();
        library.expected.device[Device::ENABLED] = 0xa7;
        library.lent.device.set(&library.expected.device);
        library
    }

    /// A fresh device, whatever lay in its area.
    pub fn fresh(&mut self) {
        sys::fresh(self.lent.device.array_mut());
        Device::put_fresh(&mut self.expected.device);
        self.differences.extend(self.compare());
    }

    pub fn spoiled(sizes: Sizes, spoiled: Spoiled) -> Self {
        Self {
            spoiled: Some(spoiled),
            ..Self::new(sizes)
        }
    }

    pub fn areas(&self) -> &Areas {
        &self.expected
    }

    pub fn into_areas(self) -> Areas {
        self.expected
    }

    /// The areas that number 1 speaks of, as long as the call has them.
    fn lend(&mut self, call: &Call) {
        let Some(lent) = call.areas() else {
            return;
        };
        let front =
            |area: &mut Guarded, expected: &[u8], length: usize| area.set(&expected[..length.min(expected.len())]);
        if let Call::FreshExchange { exchange, .. }
        | Call::Inventory { exchange, .. }
        | Call::CustodyCode { exchange, .. } = call
        {
            let (session, expected) = (&mut self.sessions[*exchange], &self.expected.sessions[*exchange]);
            front(&mut session.prefixes, &expected.prefixes, lent.prefixes);
            front(&mut session.offers, &expected.offers, lent.offers);
        }
        front(&mut self.lent.replies, &self.expected.replies, lent.replies);
        front(&mut self.lent.actions, &self.expected.actions, lent.actions);
        front(&mut self.answer, &self.expected.answer, lent.answer);
    }

    fn compare(&self) -> Vec<String> {
        let (mut found, lent, expected) = (Vec::new(), &self.lent, &self.expected);
        for (name, real, expected) in [
            ("device", &lent.device, &expected.device[..]),
            ("contacts", &lent.contacts, &expected.contacts),
            ("own rows", &lent.own, &expected.own),
            ("carried rows", &lent.carried, &expected.carried),
            ("tombstones", &lent.tombstones, &expected.tombstones),
            ("bad tags", &lent.bad_tags, &expected.bad_tags),
            ("own cells", &lent.own_cells, &expected.own_cells),
            ("carried cells", &lent.carried_cells, &expected.carried_cells),
            ("replies", &lent.replies, &expected.replies),
            ("actions", &lent.actions, &expected.actions),
            ("answer", &self.answer, &expected.answer),
            ("own row answered", &self.row, &expected.row),
        ] {
            different(name, real, expected, &mut found);
        }
        for (real, expected) in self.sessions.iter().zip(&expected.sessions) {
            different("exchange", &real.exchange, &expected.exchange, &mut found);
            different("listed prefixes", &real.prefixes, &expected.prefixes, &mut found);
            different("offers", &real.offers, &expected.offers, &mut found);
        }
        for input in &self.inputs {
            different("what is only read", &input.area, &input.bytes, &mut found);
        }
        found
    }

    /// The call by the library, held against the third statement's.
    pub fn outcome(&mut self, call: &Call) -> Outcome {
        self.lend(call);
        let mut outcome = self.called(call);
        let expected = performed(&mut self.expected, call);
        if let Some(spoiled) = self.spoiled {
            self.spoil(spoiled, &mut outcome);
        }
        self.differences.extend(self.compare());
        if outcome != expected {
            self.differences
                .push(format!("answer: library {outcome:?}, expected {expected:?}"));
        }
        outcome
    }

    /// What was found since it was last asked.
    pub fn differences(&mut self) -> Vec<String> {
        std::mem::take(&mut self.differences)
    }
}

impl Post for Library {
    fn perform(&mut self, call: &Call) -> Answer {
        let outcome = self.outcome(call);
        outcome.answer(call, &self.expected)
    }

    /// Every byte of the library's areas was held against these.
    fn state(&mut self) -> Cow<'_, State> {
        Cow::Owned(decoded(&self.expected))
    }

    fn stray_writes(&mut self) -> Vec<String> {
        self.differences()
    }
}

//! What the checks build their posts of.

use crate::compare::judge::Judge;
use crate::compare::maker;
use crate::compare::pair::difference;
use post::{
    Action, Answer, Areas, Bytes, Call, Custody, Dir, Envelope, Held, NewOwn, Post, Prefix, Reply, Sizes, State, Tag,
    Verification, WindowRow, encode_window,
};
use reference::{Raw, Source};
use rules::{Rules, Wrong};
use std::cell::Cell;

/// A verified, an unverified and a compromised contact.
pub const VERIFIED: u64 = 5;
pub const UNVERIFIED: u64 = 6;
pub const COMPROMISED: u64 = 7;
pub const STRANGER: u64 = 99;

/// Minute 10.
pub const SECONDS: u64 = 600;

pub const SECRET: [u8; 16] = [0x5e; 16];
pub const WRONG_SECRET: [u8; 16] = [0x5f; 16];

pub fn tag(byte: u8) -> Tag {
    [byte; 16]
}

/// Tags that share a prefix.
pub fn tag_in(prefix: u8, end: u8) -> Tag {
    let mut tag = [end; 16];
    tag[..8].fill(prefix);
    tag
}

pub fn prefix(byte: u8) -> Prefix {
    [byte; 8]
}

pub fn envelope(tag: Tag, expiry: u32, copies: u8) -> Envelope {
    Envelope {
        tag,
        commitment: reference::raw::commitment(&SECRET),
        expiry,
        copies,
        ciphertext: vec![0; 48].into(),
    }
}

pub fn carried(depositor: u64, tag: Tag, expiry: u32, copies: u8) -> Held {
    Held::Carried {
        depositor,
        envelope: envelope(tag, expiry, copies),
    }
}

pub fn tombstone(tag: Tag, expiry: u32) -> Held {
    Held::Tombstone {
        tag,
        secret: SECRET,
        expiry,
    }
}

/// Three contacts, minute 10, an exchange open with each.
pub fn source() -> Source {
    let mut source = Source::new(3);
    source.contact(VERIFIED, Verification::Verified);
    source.contact(UNVERIFIED, Verification::Unverified);
    source.contact(COMPROMISED, Verification::Compromised);
    source.clock(SECONDS);
    for (exchange, peer) in [VERIFIED, UNVERIFIED, COMPROMISED].into_iter().enumerate() {
        source.fresh_exchange(exchange, peer);
    }
    source
}

/// An own row for a contact; its tag is that of `route_tag`.
pub fn own(source: &mut Source, contact: u64, message: u32, index: u32) -> Tag {
    let new = NewOwn {
        contact,
        message,
        route_key: [9; 32],
        dir: Dir::I,
        generation: 2,
        index,
        secret: SECRET,
        ciphertext: vec![1; 48].into(),
    };
    let row = source.own_envelope(&new).expect("an envelope");
    source.hold_own(&new, &row);
    row.tag
}

pub fn code(raw: &Raw) -> Option<Custody> {
    match raw.replies[..] {
        [Reply::Custody(_, code)] => Some(code),
        _ => None,
    }
}

pub fn window_row(contact: u64, index: u32, tag: Tag) -> WindowRow {
    WindowRow {
        contact,
        dir: b'I',
        generation: 0,
        index,
        tag,
    }
}

/// The prefixes in one list, and then the empty one.
pub fn listed(
    source: &mut Source,
    exchange: usize,
    peer: u64,
    prefixes: &[Prefix],
    window: &[WindowRow],
) -> Vec<Reply> {
    if !prefixes.is_empty() {
        source.inventory(exchange, peer, prefixes.to_vec(), window);
    }
    source.inventory(exchange, peer, Vec::new(), window).replies
}

pub fn copies(source: &Source, tag: Tag) -> Option<u8> {
    let state = source.state();
    let found = state
        .carried()
        .find(|(_, _, envelope)| envelope.tag == tag)
        .map(|(_, _, envelope)| envelope.copies);
    found.or_else(|| state.own.iter().find(|row| row.tag == tag).map(|row| row.copies))
}

pub const SIZES: Sizes = Sizes {
    carried_cells: 2,
    own_cells: 2,
    tombstone_rows: 2,
    bad_rows: 1,
    exchanges: 2,
};

/// Who must answer as the reference does: the second statement, and the library where it is linked.
const OTHERS: &[&str] = if cfg!(feature = "library") {
    &["rules", "library"]
} else {
    &["rules"]
};

thread_local! {
    /// A wrong variant of the second statement in place of the others.
    static WRONG: Cell<Option<Wrong>> = const { Cell::new(None) };
}

/// What comes of checks whose posts stand beside this wrong variant and no other.
pub fn beside<T>(wrong: Wrong, run: impl FnOnce() -> T) -> T {
    WRONG.set(Some(wrong));
    let result = run();
    WRONG.set(None);
    result
}

fn others(sizes: Sizes) -> Vec<(&'static str, Box<dyn Post>)> {
    match WRONG.get() {
        Some(wrong) => vec![("wrong", Box::new(Rules::wrong_in(sizes, wrong)))],
        None => OTHERS
            .iter()
            .map(|name| (*name, maker(name).expect("a party")(sizes)))
            .collect(),
    }
}

/// A post under document 01's refusals, with the three contacts and minute 10. Every call is put to the others too.
pub struct Bench {
    judge: Judge,
    others: Vec<(&'static str, Box<dyn Post>)>,
    pub areas: Areas,
}

impl Bench {
    pub fn new(sizes: Sizes) -> Self {
        let mut bench = Self {
            judge: Judge::new(sizes),
            others: others(sizes),
            areas: Areas::enough(&sizes),
        };
        for (id, verification) in [
            (VERIFIED, Verification::Verified),
            (UNVERIFIED, Verification::Unverified),
            (COMPROMISED, Verification::Compromised),
        ] {
            bench.call(Call::Contact { id, verification });
        }
        bench.call(Call::Clock { seconds: SECONDS });
        bench
    }

    pub fn call(&mut self, call: Call) -> Answer {
        let others = &mut self.others;
        let taken = self.judge.take(&call, |seen| {
            for (name, other) in others {
                difference(&mut **other, seen).map_err(|what| format!("{name}: {what}"))?;
            }
            Ok(seen.answer.clone())
        });
        taken
            .and_then(|answer| answer)
            .unwrap_or_else(|what| panic!("{call:?}: {what}"))
    }

    pub fn state(&self) -> State {
        self.judge.held().clone()
    }

    pub fn refusal(&mut self, call: Call) -> Option<u8> {
        match self.call(call) {
            Answer::Refused(number) => Some(number),
            _ => None,
        }
    }

    /// The file of what is held.
    pub fn save(&mut self) -> Bytes {
        let areas = self.areas;
        match self.call(Call::Save { areas }) {
            Answer::Saved(file) => file,
            answer => panic!("a save was answered by {answer:?}"),
        }
    }

    pub fn envelope_call(&self, peer: u64, envelope: Envelope) -> Call {
        Call::Envelope {
            areas: self.areas,
            window: Vec::new().into(),
            peer,
            envelope,
        }
    }

    /// A valid envelope of a new tag.
    pub fn deposit(&mut self, byte: u8) -> Answer {
        let call = self.envelope_call(VERIFIED, envelope(tag(byte), 100, 4));
        self.call(call)
    }

    /// What `deposit` answers with this code; Accepted puts the row in the slot.
    pub fn deposit_answer(&self, byte: u8, slot: u64, code: Custody) -> Answer {
        let accepted = code == Custody::Accepted;
        Answer::Done {
            malformed: false,
            replies: vec![Reply::Custody(tag(byte), code)],
            actions: if accepted {
                vec![Action::Put { slot }]
            } else {
                Vec::new()
            },
            searched: 0,
        }
    }

    pub fn own_call(&self, contact: u64, message: u32, length: usize) -> Call {
        Call::OwnEnvelope(NewOwn {
            contact,
            message,
            route_key: [9; 32],
            dir: Dir::I,
            generation: 2,
            index: message,
            secret: SECRET,
            ciphertext: vec![1; length].into(),
        })
    }

    pub fn stored_call(&self, byte: u8) -> Call {
        Call::StoredTombstone {
            areas: self.areas,
            tag: tag(byte),
            secret: SECRET,
            expiry: 100,
        }
    }

    /// Stores a tombstone.
    pub fn store(&mut self, tag: Tag, expiry: u32) {
        self.call(Call::StoredTombstone {
            areas: self.areas,
            tag,
            secret: SECRET,
            expiry,
        });
    }

    pub fn tomb_call(&self, tag: Tag, secret: [u8; 16]) -> Call {
        Call::Tomb {
            areas: self.areas,
            peer: VERIFIED,
            tag,
            secret,
        }
    }

    /// A fresh exchange with the verified contact.
    pub fn open(&mut self) {
        self.call(Call::FreshExchange {
            areas: self.areas,
            exchange: 0,
            peer: VERIFIED,
        });
    }

    /// A list of prefixes in that exchange, with a window of these rows.
    pub fn inventory(&mut self, prefixes: &[Prefix], rows: &[WindowRow]) -> Answer {
        self.call(Call::Inventory {
            areas: self.areas,
            window: encode_window(rows),
            exchange: 0,
            peer: VERIFIED,
            prefixes: prefixes.concat().into(),
        })
    }
}

/// A post with an exchange open with the verified contact.
pub fn opened(sizes: Sizes) -> Bench {
    let mut bench = Bench::new(sizes);
    bench.open();
    bench
}

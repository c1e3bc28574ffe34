//! The boundary byte by byte. As an argument, a verification above 2, enabled above 1 and a code above 4 meet 13, a direction that is
//! neither `I` nor `R` meets 12. In an area every byte is a flag.

use crate::Library;
use crate::calls::says_only;
use goosetable_sys::Answer;
use lent::{Device, Exchange};
use post::{Areas, Call, Custody, Dir, Envelope, NewOwn, Post, Sizes, Verification};

const PEER: u64 = 5;

fn new_own() -> NewOwn {
    NewOwn {
        contact: PEER,
        message: 1,
        route_key: [1; 32],
        dir: Dir::I,
        generation: 0,
        index: 0,
        secret: [2; 16],
        ciphertext: vec![3; 48].into(),
    }
}

fn known_peer() -> Library {
    let mut library = Library::new(Sizes::DRILL);
    library.perform(&Call::Contact {
        id: PEER,
        verification: Verification::Verified,
    });
    library
}

/// A byte as each argument that no call has: which, the number that it meets, and what the library says.
fn tried(library: &mut Library, byte: u8) -> Vec<(&'static str, u8, Answer)> {
    let mut tried = Vec::new();
    if byte > 1 {
        tried.push(("enabled", 13, library.setting_of(byte, 6, 1_440)));
    }
    if byte > 2 {
        tried.push(("verification", 13, library.contact_of(PEER + 1, byte)));
    }
    if byte > 4 {
        tried.push(("code", 13, library.custody_code_of(0, PEER, &[1; 16], byte)));
    }
    if !b"IR".contains(&byte) {
        tried.push(("direction", 12, library.own_envelope_of(&new_own(), byte)));
    }
    tried
}

/// Every byte as every argument that no call has; what the library says or leaves wrongly.
pub fn wrong_arguments() -> Vec<String> {
    let mut library = known_peer();
    let mut found = library.differences();
    for byte in 0..=255 {
        for (what, number, answer) in tried(&mut library, byte) {
            if answer != says_only(number) {
                found.push(format!("{what} {byte}: the library says {answer:?}"));
            }
        }
        let left = library.compare().into_iter();
        found.extend(left.map(|what| format!("argument {byte}: {what}")));
    }
    found
}

/// Calls that read or write the device's flag, done and refused.
fn device_calls() -> Vec<Call> {
    let setting = |enabled, copies| Call::Setting {
        enabled,
        copies,
        lifetime: 1_440,
    };
    let envelope = Call::Envelope {
        areas: Areas::enough(&Sizes::DRILL),
        window: Vec::new().into(),
        peer: PEER,
        envelope: Envelope {
            tag: [9; 16],
            commitment: [8; 16],
            expiry: 100,
            copies: 0,
            ciphertext: vec![3; 48].into(),
        },
    };
    vec![setting(true, 6), setting(false, 6), setting(true, 17), envelope]
}

/// Calls that read or write an exchange's flags, done, malformed and refused.
fn exchange_calls() -> Vec<Call> {
    let (areas, exchange) = (Areas::enough(&Sizes::DRILL), 0);
    let fresh = |peer| Call::FreshExchange { areas, exchange, peer };
    let inventory = |prefixes: &[u8]| Call::Inventory {
        areas,
        window: Vec::new().into(),
        exchange,
        peer: PEER,
        prefixes: prefixes.into(),
    };
    let code = Call::CustodyCode {
        areas,
        exchange,
        peer: PEER,
        tag: [9; 16],
        code: Custody::Accepted,
    };
    vec![fresh(PEER), fresh(PEER + 1), inventory(&[]), inventory(&[7; 8]), code]
}

impl Library {
    /// The bytes of the three flags, and an exchange that lists nothing and offers nothing, of the peer if it is open.
    fn set_flags(&mut self, [enabled, open, complete]: [u8; 3]) {
        self.expected.device[Device::ENABLED] = enabled;
        self.lent.device.set(&self.expected.device);
        let (real, expected) = (&mut self.sessions[0], &mut self.expected.sessions[0].exchange);
        expected.fill(0);
        expected[Exchange::PEER..Exchange::LISTED].copy_from_slice(&PEER.to_be_bytes());
        expected[Exchange::OPEN] = open;
        expected[Exchange::COMPLETE] = complete;
        real.exchange.set(expected);
    }
}

/// Every byte as each flag of the device and of an exchange, before every call that reads or writes one.
pub fn wrong_flags() -> Vec<String> {
    let mut library = known_peer();
    let mut found = library.differences();
    let calls = [device_calls(), exchange_calls()].concat();
    for byte in 0..=255 {
        for flags in [[byte, 1, 0], [1, byte, 0], [1, 1, byte]] {
            for call in &calls {
                library.set_flags(flags);
                library.outcome(call);
                let left = library.differences().into_iter();
                found.extend(left.map(|what| format!("flags {flags:?}, {call:?}: {what}")));
            }
        }
    }
    found
}

/// Every byte in every place of the device's area before a fresh device.
pub fn wrong_fresh_device() -> Vec<String> {
    let mut library = known_peer();
    let mut found = library.differences();
    for byte in 0..=255 {
        library.expected.device.fill(byte);
        library.lent.device.set(&library.expected.device);
        library.fresh();
        let left = library.differences().into_iter();
        found.extend(left.map(|what| format!("a fresh device over bytes {byte}: {what}")));
    }
    found
}

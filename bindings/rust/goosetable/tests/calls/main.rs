//! Every call through the safe interface. What is expected was worked out from document 01's sentences; tags and commitments
//! were computed with another implementation of HMAC and SHA-384.
#![forbid(unsafe_code)]

mod any_bytes;
mod deliveries;
mod documented;
mod drills;
mod envelopes;
mod exchanges;
mod files;
mod keys;
mod later;
mod limit;
mod own;
mod pages;
mod restart;
mod settings;
mod shown;
mod tables;
mod upkeep;
mod windows;

use goosetable::*;

const VERIFIED: ContactId = ContactId(5);
const UNVERIFIED: ContactId = ContactId(6);
const COMPROMISED: ContactId = ContactId(7);
const STRANGER: ContactId = ContactId(99);

const SIZES: Sizes = Sizes {
    carried_cells: 40,
    own_cells: 4,
    tombstone_rows: 8,
    bad_tag_rows: 2,
};

const ROUTE_KEY: [u8; 32] = [0x44; 32];
const SECRET: Secret = Secret([0x33; 16]);
/// SHA-384 of the labelled secret, its first 16 bytes.
const COMMITMENT: Commitment = Commitment(0xb18dc87badb0d06effa11037d4d760af_u128.to_be_bytes());

/// A post at minute 10 that knows three contacts.
fn sized(sizes: Sizes) -> Post {
    let mut post = Post::new(sizes).unwrap();
    for (contact, verification) in [
        (VERIFIED, Verification::Verified),
        (UNVERIFIED, Verification::Unverified),
        (COMPROMISED, Verification::Compromised),
    ] {
        post.set_contact(contact, verification).unwrap();
    }
    post.set_clock(600);
    post
}

fn post() -> Post {
    sized(SIZES)
}

fn tag(byte: u8) -> Tag {
    Tag([byte; 16])
}

/// An envelope that expires at minute 100.
fn envelope(byte: u8, copies: u8) -> Envelope<'static> {
    Envelope {
        header: Header {
            tag: tag(byte),
            commitment: COMMITMENT,
            expiry_min: 100,
            copies,
        },
        ciphertext: &[0xc7; 48],
    }
}

fn message(contact: ContactId, message: u32, index: u32) -> OwnMessage<'static> {
    OwnMessage {
        contact,
        message,
        route_key: &ROUTE_KEY,
        key: key(index),
        secret: SECRET,
        ciphertext: &[0x0e; 80],
    }
}

fn key(index: u32) -> MessageKey {
    MessageKey {
        direction: Direction::Initiator,
        generation: 0,
        index,
    }
}

fn window_row(contact: ContactId, index: u32, tag: Tag) -> WindowRow {
    WindowRow {
        contact,
        key: key(index),
        tag,
    }
}

/// A window of rows that have different keys.
fn window_of<const N: usize>(rows: [WindowRow; N]) -> Window {
    Window::from_rows(rows).unwrap()
}

/// The code that answers an envelope which is not ours.
fn code(post: &mut Post, peer: ContactId, envelope: Envelope<'_>) -> Custody {
    match post.envelope(peer, envelope, &Window::EMPTY).unwrap() {
        Received::Replied { code, .. } => code,
        ours => panic!("{ours:?}"),
    }
}

/// Has the post take an envelope, and answers its slot.
fn carry(post: &mut Post, peer: ContactId, envelope: Envelope<'_>) -> Slot {
    match post.envelope(peer, envelope, &Window::EMPTY).unwrap() {
        Received::Replied {
            code: Custody::Accepted,
            mut actions,
            ..
        } => match actions.next() {
            Some(Action::Put(slot)) => slot,
            other => panic!("{other:?}"),
        },
        other => panic!("{other:?}"),
    }
}

/// What a tomb from the verified contact does; none if it is malformed.
fn tomb(post: &mut Post, tag: Tag, secret: Secret) -> Option<Vec<Action>> {
    match post.tomb(VERIFIED, tag, secret).unwrap() {
        Record::Taken(actions) => Some(actions.collect()),
        Record::Malformed => None,
    }
}

fn listed(actions: Actions<'_>) -> Vec<Action> {
    actions.collect()
}

/// The number that refuses a call, which must leave every byte of the post as it was.
fn refused<T>(post: &mut Post, call: impl FnOnce(&mut Post) -> Result<T, Refusal>) -> u8 {
    let before = post.areas().clone();
    let number = match call(post) {
        Ok(_) => panic!("not refused"),
        Err(refusal) => refusal.number(),
    };
    assert!(
        *post.areas() == before,
        "a call refused with {number} wrote"
    );
    number
}

/// The header, depositor and ciphertext of a carried row.
fn carried(post: &Post, slot: Slot) -> (Header, ContactId, Vec<u8>) {
    let mut blob = [0; BLOB];
    match post.row_blob(slot, &mut blob).and_then(row_read) {
        Some(HeldRow::Carried {
            depositor,
            envelope,
        }) => (envelope.header, depositor, envelope.ciphertext.to_vec()),
        other => panic!("{other:?}"),
    }
}

/// Tag, secret and expiry of a tombstone.
fn tombstone(post: &Post, slot: Slot) -> (Tag, Secret, u32) {
    let mut blob = [0; BLOB];
    match post.row_blob(slot, &mut blob).and_then(row_read) {
        Some(HeldRow::Tombstone {
            tag,
            secret,
            expiry_min,
        }) => (tag, secret, expiry_min),
        other => panic!("{other:?}"),
    }
}

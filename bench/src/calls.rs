//! The calls that are measured, for a pair of posts: what they need is put into both.

use crate::pair::{Pair, Shape, envelope, new_own, sixteen};
use post::{
    Call, ChainRow, Custody, Envelope, Held, NewOwn, Prefix, SkippedRow, Tag, Verification, array, encode_chains,
    encode_skipped, encode_window,
};
use source::raw;

/// The number of rows and messages that no row has.
const NEW: usize = 256;
const LENGTH: usize = 2_064;

fn envelope_call(pair: &Pair, envelope: Envelope) -> Call {
    Call::Envelope { areas: pair.areas, window: encode_window(&pair.window), peer: pair.peer(), envelope }
}

pub fn new_envelope(pair: &mut Pair) -> Call {
    envelope_call(pair, envelope(NEW, LENGTH))
}

pub fn envelope_of_last(pair: &mut Pair) -> Call {
    envelope_call(pair, pair.carried().last().expect("a row").1.clone())
}

pub fn envelope_of_ours(pair: &mut Pair) -> Call {
    let mut ours = envelope(NEW, LENGTH);
    ours.tag = pair.window.last().expect("a window").tag;
    envelope_call(pair, ours)
}

pub fn fetch_last(pair: &mut Pair) -> Call {
    Call::Fetch { areas: pair.areas, peer: pair.peer(), tag: pair.carried().last().expect("a row").1.tag }
}

pub fn own_of_first_contact(_: &mut Pair) -> Call {
    Call::OwnEnvelope(new_own(1, NEW, LENGTH))
}

pub fn own_of_last_contact(pair: &mut Pair) -> Call {
    Call::OwnEnvelope(new_own(pair.peer(), NEW, LENGTH))
}

/// An own message that no courier carries.
pub fn own_too_long(pair: &mut Pair) -> Call {
    Call::OwnEnvelope(new_own(pair.peer(), NEW, 4_064))
}

// ---- exchanges

fn inventory(pair: &Pair, prefixes: &[Prefix]) -> Call {
    Call::Inventory {
        areas: pair.areas,
        window: encode_window(&pair.window),
        exchange: 0,
        peer: pair.peer(),
        prefixes: prefixes.concat().into(),
    }
}

pub fn list(pair: &mut Pair) -> Call {
    pair.exchange(Vec::new());
    inventory(pair, &pair.listed())
}

pub fn terminator(pair: &mut Pair) -> Call {
    pair.exchange(vec![pair.listed()]);
    inventory(pair, &[])
}

/// The end of an inventory of these tags.
fn end_of(pair: &mut Pair, tags: impl Iterator<Item = Tag>) -> Call {
    pair.exchange(vec![tags.map(|tag| array(&tag, 0)).collect()]);
    inventory(pair, &[])
}

/// As many tags as own and carried rows, of which the post holds none.
pub fn end_of_others(pair: &mut Pair) -> Call {
    let rows = pair.shape.own + pair.shape.carried;
    end_of(pair, (0..rows).map(|number| sixteen(b'P', number)))
}

/// The tags of all own and carried rows of a full post, also where none of them is held.
pub fn end_of_every_row(pair: &mut Pair) -> Call {
    let full = Shape::of(pair.shape.contacts);
    let own: Vec<Tag> = full.own_rows().iter().map(tag_of).collect();
    let carried = (0..full.carried).map(|number| envelope(number, LENGTH).tag);
    end_of(pair, own.into_iter().chain(carried))
}

/// Everything is offered before.
fn code(pair: &mut Pair, tag: Tag, code: Custody) -> Call {
    pair.exchange(vec![Vec::new()]);
    Call::CustodyCode { areas: pair.areas, exchange: 0, peer: pair.peer(), tag, code }
}

pub fn accepted_last_carried(pair: &mut Pair) -> Call {
    code(pair, pair.carried().last().expect("a row").1.tag, Custody::Accepted)
}

pub fn accepted_last_own(pair: &mut Pair) -> Call {
    code(pair, tag_of(pair.last_own()), Custody::Accepted)
}

pub fn full_last_carried(pair: &mut Pair) -> Call {
    code(pair, pair.carried().last().expect("a row").1.tag, Custody::Full)
}

pub fn inventory_of_ours(pair: &mut Pair) -> Call {
    Call::InventoryOfOurs { areas: pair.areas, peer: pair.peer() }
}

// ---- tombstones

fn tag_of(own: &NewOwn) -> Tag {
    raw::route_tag(&own.route_key, own.dir.label(), own.generation, own.index)
}

fn tomb(pair: &Pair, tag: Tag, secret: [u8; 16]) -> Call {
    Call::Tomb { areas: pair.areas, peer: pair.peer(), tag, secret }
}

pub fn tomb_of_first(pair: &mut Pair) -> Call {
    tomb(pair, pair.carried().next().expect("a row").1.tag, sixteen(b'S', 0))
}

pub fn tomb_of_last(pair: &mut Pair) -> Call {
    let number = pair.shape.carried - 1;
    tomb(pair, pair.carried().last().expect("a row").1.tag, sixteen(b'S', number))
}

/// That of the last row, beside plain Rust that obeys the limit of tombstones.
pub fn tomb_at_limit(pair: &mut Pair) -> Call {
    pair.source.limit_turned();
    tomb_of_last(pair)
}

pub fn tomb_of_own(pair: &mut Pair) -> Call {
    let own = pair.last_own();
    tomb(pair, tag_of(own), own.secret)
}

pub fn stored_tombstone(pair: &mut Pair) -> Call {
    Call::StoredTombstone { areas: pair.areas, tag: sixteen(b'N', 0), secret: sixteen(b'N', 1), expiry: 9_000 }
}

pub fn opened(pair: &mut Pair) -> Call {
    Call::Opened {
        areas: pair.areas,
        peer: pair.peer(),
        tag: sixteen(b'N', 0),
        secret: sixteen(b'N', 1),
        expiry: 9_000,
    }
}

pub fn failed(pair: &mut Pair) -> Call {
    Call::Failed { peer: pair.peer(), tag: sixteen(b'N', 0) }
}

// ---- maintenance

pub fn maintenance(pair: &mut Pair) -> Call {
    Call::Maintenance { areas: pair.areas }
}

/// At the minute when half of everything has expired.
pub fn late_maintenance(pair: &mut Pair) -> Call {
    pair.set_late();
    maintenance(pair)
}

// ---- rows and files

fn blob_of(pair: &Pair, slot: u64) -> Call {
    Call::RowBlob { areas: pair.areas, slot }
}

pub fn blob_of_last_carried(pair: &mut Pair) -> Call {
    blob_of(pair, pair.carried().last().expect("a row").0)
}

pub fn blob_of_last_tombstone(pair: &mut Pair) -> Call {
    blob_of(pair, pair.tombstones().last().expect("a row").0)
}

pub fn row_read(pair: &mut Pair) -> Call {
    let (_, held): &(u64, Held) = pair.held.last().expect("a row");
    Call::RowRead { blob: raw::blob(held).into() }
}

pub fn save(pair: &mut Pair) -> Call {
    Call::Save { areas: pair.areas }
}

pub fn load(pair: &mut Pair) -> Call {
    Call::Load { file: pair.source.saved() }
}

/// As many skipped rows as carried ones, and a chain that ends after as many more.
pub fn window(pair: &mut Pair) -> Call {
    let rows = pair.shape.carried as u32;
    let row = |index| SkippedRow { dir: b'I', generation: 0, index };
    let chain = ChainRow { dir: b'R', generation: 1, next: (1 << 32) - u64::from(rows) };
    Call::Window {
        areas: pair.areas,
        skipped: encode_skipped(&(0..rows).map(row).collect::<Vec<_>>()),
        chains: encode_chains(&[chain]),
    }
}

// ---- what the host sets

pub fn contact(pair: &mut Pair) -> Call {
    Call::Contact { id: pair.peer(), verification: Verification::Compromised }
}

pub fn fresh_exchange(pair: &mut Pair) -> Call {
    Call::FreshExchange { areas: pair.areas, exchange: 0, peer: pair.peer() }
}

pub fn setting(_: &mut Pair) -> Call {
    Call::Setting { enabled: true, copies: 16, lifetime: 60 }
}

pub fn clock(_: &mut Pair) -> Call {
    Call::Clock { seconds: 6_000 }
}

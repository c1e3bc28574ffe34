//! Request Five: carried rows with 0 copies, which are read back. What the source does with them is in restored.rs.

use super::bench::*;
use super::files::{ROOMY, depositor_rows, loads, next, numbered, refused, row};
use super::limit::acts;
use super::{Check, Outcome, same};
use crate::compare::judge::{By, Judge};
use post::{
    Action, Answer, Areas, Call, Custody, Envelope, FileRecord, Held, Reply, Sizes, Tag, Verification, encode_file,
};
use reference::raw;

/// Three exchanges, one for each peer.
const THREE: Sizes = Sizes { exchanges: 3, ..ROOMY };
const PEERS: [u64; 3] = [VERIFIED, UNVERIFIED, COMPROMISED];

/// What a peer is offered, and for how many rows the tombstones were searched.
fn offered(bench: &mut Bench, exchange: usize, peer: u64) -> (Vec<(Tag, u8)>, usize) {
    let areas = bench.areas;
    bench.call(Call::FreshExchange { areas, exchange, peer });
    let ended = bench.call(Call::Inventory {
        areas,
        window: Vec::new().into(),
        exchange,
        peer,
        prefixes: Vec::new().into(),
    });
    let Answer::Done { replies, searched, .. } = ended else {
        panic!("the inventory was answered by {ended:?}");
    };
    let offer = |reply: &Reply| match reply {
        Reply::Envelope(envelope) => Some((envelope.tag, envelope.copies)),
        _ => None,
    };
    (replies.iter().filter_map(offer).collect(), searched)
}

fn accept(bench: &mut Bench, exchange: usize, byte: u8) {
    bench.call(Call::CustodyCode {
        areas: bench.areas,
        exchange,
        peer: PEERS[exchange],
        tag: tag(byte),
        code: Custody::Accepted,
    });
}

fn copies_there(bench: &Bench) -> Vec<u8> {
    let state = bench.state();
    state.carried().map(|(_, _, envelope)| envelope.copies).collect()
}

/// A post that was offered rows 1 and 2 with 4 copies, and handed 2 of them to each of three peers. After that came a tombstone, one of row 2's
/// tag, and row 4, with its copies.
fn handed_over() -> Bench {
    let mut bench = Bench::new(THREE);
    for (byte, length) in [(1, 48), (2, 2_064)] {
        let sent = Envelope {
            ciphertext: vec![byte; length].into(),
            ..envelope(tag(byte), 100, 4)
        };
        let call = bench.envelope_call(VERIFIED, sent);
        bench.call(call);
    }
    for (exchange, peer) in PEERS.into_iter().enumerate() {
        offered(&mut bench, exchange, peer);
    }
    for exchange in 0..PEERS.len() {
        accept(&mut bench, exchange, 1);
        accept(&mut bench, exchange, 2);
    }
    bench.store(tag(3), 100);
    bench.store(tag(2), 100);
    bench.deposit(4);
    bench
}

/// A fresh post with the same contacts that has loaded the file of that one.
fn started_again() -> Bench {
    let file = handed_over().save();
    let mut bench = Bench::new(THREE);
    assert_eq!(bench.call(Call::Load { file }), Answer::nothing());
    bench
}

/// Rows, ciphertexts and next slot are those that were saved, and are saved alike.
fn saved_and_loaded() -> Outcome {
    let mut bench = handed_over();
    same(copies_there(&bench), vec![0, 0, 4])?;
    let (before, file) = (bench.state(), bench.save());
    let mut again = started_again();
    let after = again.state();
    same((before.held.len(), before.next_slot), (5, 5))?;
    same(&after.held, &before.held)?;
    same(after.next_slot, before.next_slot)?;
    same(again.save(), file.clone())?;
    same(bench.call(Call::Load { file }), Answer::nothing())?;
    same(bench.state(), before)
}

/// It is not offered and not counted, listed and fetched; a code takes nothing off; it is a duplicate, turns, and is past as any row.
fn loaded_rows_live_on() -> Outcome {
    let mut bench = started_again();
    let (areas, peer) = (bench.areas, UNVERIFIED);
    same(offered(&mut bench, 1, peer), (vec![(tag(4), 2)], 1))?;
    accept(&mut bench, 1, 1);
    same(copies_there(&bench), vec![0, 0, 4])?;
    let listed = bench.call(Call::InventoryOfOurs { areas, peer });
    same(listed, Answer::Listed([1, 2, 4].map(prefix).to_vec()))?;
    let tag = tag(1);
    let Answer::Done { replies, .. } = bench.call(Call::Fetch { areas, peer, tag }) else {
        return Err("no reply".into());
    };
    let sent = Envelope {
        ciphertext: vec![1; 48].into(),
        ..envelope(tag, 100, 0)
    };
    same(replies, vec![Reply::Envelope(sent)])?;
    same(bench.deposit(1), bench.deposit_answer(1, 0, Custody::Duplicate))?;
    let tomb = bench.tomb_call(tag, SECRET);
    same(bench.call(tomb), acts(&[Action::Put { slot: 0 }]))?;
    bench.call(Call::Clock { seconds: 100 * 60 });
    let deleted = [0, 1, 2, 3, 4].map(|slot| Action::Delete { slot });
    same(bench.call(Call::Maintenance { areas }), acts(&deleted))
}

/// An envelope that comes in with 0 copies is Invalid, also where its tag is held with 0, and where couriers are off it is Off.
fn wire_needs_copies() -> Outcome {
    let mut bench = started_again();
    for byte in [1, 4, 9] {
        let call = bench.envelope_call(UNVERIFIED, envelope(tag(byte), 100, 0));
        same(bench.call(call), bench.deposit_answer(byte, 0, Custody::Invalid))?;
    }
    bench.call(Call::Setting {
        enabled: false,
        copies: 6,
        lifetime: 1_440,
    });
    let call = bench.envelope_call(UNVERIFIED, envelope(tag(9), 100, 0));
    same(bench.call(call), bench.deposit_answer(9, 0, Custody::Off))
}

/// Expiry 0 is refused with any copies; so is a ciphertext of another length.
fn expiry_and_length_decide() -> Outcome {
    for copies in [0, 1, 255] {
        for (expiry, length, is_read) in [
            (1, 48, true),
            (0, 48, false),
            (1, 49, false),
            (1, 0, false),
            (0, 0, false),
        ] {
            let held = Held::Carried {
                depositor: VERIFIED,
                envelope: Envelope {
                    ciphertext: vec![0; length].into(),
                    ..envelope(tag(1), expiry, copies)
                },
            };
            let mut bench = Bench::new(ROOMY);
            let blob = raw::blob(&held).into();
            let file = encode_file(&[next(5), row(1, &held)]);
            let read = bench.call(Call::RowRead { blob });
            same(read, Answer::Row(is_read.then_some(held)))?;
            let want = if is_read { Answer::nothing() } else { Answer::Refused(8) };
            same(bench.call(Call::Load { file }), want)?;
        }
    }
    Ok(())
}

/// The same records, their carried rows with 0 copies.
fn handed_on(mut records: Vec<FileRecord>) -> Vec<FileRecord> {
    for record in &mut records {
        if let FileRecord::Row(b'C', _, blob) = record {
            blob[45] = 0;
        }
    }
    records
}

/// Depositors, tags, slots, 32 of one depositor and cells, for such rows as for others.
fn counted_as_others() -> Outcome {
    let all = handed_on(depositor_rows(VERIFIED, 32));
    same(loads(ROOMY, encode_file(&all)), Answer::nothing())?;
    refused(&handed_on(depositor_rows(VERIFIED, 33)))?;
    same(loads(SIZES, encode_file(&all[..3])), Answer::nothing())?;
    same(loads(SIZES, encode_file(&all[..4])), Answer::Refused(4))?;
    let held = numbered(VERIFIED, 1);
    for rows in [
        vec![row(1, &held), row(2, &held)],
        vec![row(5, &held)],
        vec![row(1, &numbered(STRANGER, 1))],
        vec![FileRecord::Row(b'T', 1, raw::blob(&carried(VERIFIED, tag(1), 100, 0)))],
    ] {
        refused(&handed_on([vec![next(5)], rows].concat()))?;
    }
    Ok(())
}

/// Who judges: the source with 1 copy for such a row, 0 put back, where one is read; else the source by itself.
fn where_rows_leave() -> Outcome {
    let mut judge = Judge::new(ROOMY);
    let row_read = |expiry, copies| Call::RowRead {
        blob: raw::blob(&carried(VERIFIED, tag(1), expiry, copies)).into(),
    };
    let load = |held: &Held, rest: &[FileRecord]| Call::Load {
        file: encode_file(&[&[next(5), row(1, held)][..], rest].concat()),
    };
    let (empty, dead) = (carried(VERIFIED, tag(1), 100, 0), carried(VERIFIED, tag(1), 0, 0));
    let (id, verification) = (VERIFIED, Verification::Verified);
    let areas = Areas::enough(&ROOMY);
    for (call, by) in [
        (Call::Contact { id, verification }, By::Source),
        (row_read(100, 1), By::Source),
        (row_read(100, 0), By::ReadWith1),
        (row_read(0, 0), By::Source),
        (load(&carried(VERIFIED, tag(1), 100, 1), &[]), By::Source),
        (load(&empty, &[next(9)]), By::Source),
        (load(&dead, &[]), By::Source),
        (load(&empty, &[]), By::ReadWith1),
        (Call::Save { areas }, By::Source),
        (Call::RowBlob { areas, slot: 1 }, By::Source),
    ] {
        same(judge.take(&call, |seen| seen.by)?, by)?;
    }
    same(judge.held().contacts.len(), 1)?;
    judge.finish()
}

pub const CHECKS: &[Check] = &[
    (
        "saved after the last copies, and loaded into a fresh post: everything is equal",
        saved_and_loaded,
    ),
    ("what becomes of such a row once it is loaded", loaded_rows_live_on),
    ("an envelope with 0 copies is Invalid", wire_needs_copies),
    ("expiry 0 and other lengths are refused", expiry_and_length_decide),
    ("depositors, tags, slots, limits and cells", counted_as_others),
    ("where a row leaves the comparison with the source", where_rows_leave),
];

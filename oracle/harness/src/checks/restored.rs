//! The source restores a device from rows; the product loads a file. docs/DIFFERENCES.md lists these inputs.

use super::bench::*;
use super::{Check, Outcome, holds, same, stops};
use post::{Answer, Call, Envelope, FileRecord, Held, HeldRow, Sizes, State, encode_file};
use reference::{Source, raw};

/// Restore takes what a load refuses with 8: a tag twice, 33 rows of one depositor, depositors that only a count knows.
fn restore_is_no_load() -> Outcome {
    let row = |slot: u64, tag: post::Tag| (slot, raw::blob(&carried(3, tag, 100, 1)));
    let twice = [row(1, tag(1)), row(7, tag(1))];
    let (rows, next) = raw::restore(&twice, 4).ok_or("restored")?;
    same((rows.len(), next), (2, 8))?;
    let many: Vec<(u64, Vec<u8>)> = (0..257).map(|slot| row(slot, tag(slot as u8))).collect();
    same(raw::restore(&many, 4).map(|(rows, _)| rows.len()), Some(257))?;
    same(raw::restore(&twice, 3), None)?;
    same(raw::restore(&[], 4).map(|(_, next)| next), Some(0))?;
    stops(|| raw::restore(&[row(u64::MAX, tag(1))], 4))
}

/// A source with something of everything: an own row, a bad tag, a row in slot 4 below next slot 40, and an offer of it.
fn lived() -> Source {
    let mut source = source();
    source.setting(true, 3, 60);
    own(&mut source, UNVERIFIED, 1, 4);
    source.failed(VERIFIED, tag(9), false);
    source.put_held(4, &carried(VERIFIED, tag(1), 100, 4));
    source.set_next_slot(40);
    source.inventory(0, VERIFIED, Vec::new(), &[]);
    source
}

/// Setting, contacts, own and held rows come from rows; the clock, the bad tags and the exchanges are gone, and the next slot is found anew.
fn restore_begins_anew() -> Outcome {
    let before = lived().state();
    same((before.own.len(), before.bad.len(), before.contacts.len()), (1, 1, 3))?;
    let anew = State {
        clock: 0,
        bad: Default::default(),
        next_slot: 5,
        ..before
    };
    let mut after = lived().restarted().ok_or("restored")?;
    same(after.state(), anew)?;
    holds(
        !lived().custody_code(0, VERIFIED, tag(1), 0).actions.is_empty(),
        "an offer stood",
    )?;
    stops(move || after.custody_code(0, VERIFIED, tag(1), 0))
}

/// The same post in the product.
fn lived_in_the_product() -> Bench {
    let mut bench = Bench::new(Sizes { bad_rows: 2, ..SIZES });
    let (areas, exchange, peer) = (bench.areas, 0, VERIFIED);
    let calls = [
        Call::Setting {
            enabled: true,
            copies: 3,
            lifetime: 60,
        },
        bench.own_call(UNVERIFIED, 1, 48),
        Call::Failed { peer, tag: tag(9) },
        bench.envelope_call(peer, envelope(tag(1), 60, 4)),
        Call::FreshExchange { areas, exchange, peer },
        Call::Inventory {
            areas,
            window: Vec::new().into(),
            exchange,
            peer,
            prefixes: Vec::new().into(),
        },
    ];
    for call in calls {
        bench.call(call);
    }
    bench
}

/// A load replaces held rows and next slot, and nothing else. A row that has expired is loaded.
fn load_leaves_the_rest() -> Outcome {
    let mut bench = lived_in_the_product();
    let before = bench.state();
    let offered: usize = before.exchanges.iter().map(|exchange| exchange.offered.len()).sum();
    same(
        (before.own.len(), before.bad.len(), before.held.len(), offered),
        (1, 1, 1, 2),
    )?;
    let held = tombstone(tag(2), 1);
    let file = encode_file(&[FileRecord::NextSlot(40), FileRecord::Row(b'T', 4, raw::blob(&held))]);
    same(bench.call(Call::Load { file }), Answer::nothing())?;
    let after = State {
        held: vec![HeldRow { slot: 4, held }],
        next_slot: 40,
        ..before
    };
    same(bench.state(), after)
}

/// A row with a ciphertext of so many bytes.
fn sized(length: usize) -> Held {
    Held::Carried {
        depositor: VERIFIED,
        envelope: Envelope {
            ciphertext: vec![0; length].into(),
            ..envelope(tag(1), 100, 1)
        },
    }
}

/// Neither reads a carried row with a ciphertext over 2,064 bytes, and no other row beside it.
fn long_rows() -> Outcome {
    let beside = raw::blob(&tombstone(tag(2), 3));
    for (length, is_read) in [(2_064, true), (2_065, false), (4_064, false), (65_000, false)] {
        let (held, blob) = (sized(length), raw::blob(&sized(length)));
        same(blob.len(), 46 + length)?;
        let rows = [(1, blob.clone()), (2, beside.clone())];
        same(raw::restore(&rows, 8).map(|(rows, _)| rows.len()), is_read.then_some(2))?;
        let mut bench = Bench::new(SIZES);
        let read = bench.call(Call::RowRead {
            blob: blob.clone().into(),
        });
        same(read, Answer::Row(is_read.then_some(held)))?;
        let rows = [FileRecord::Row(b'C', 1, blob), FileRecord::Row(b'T', 2, beside.clone())];
        let file = encode_file(&[&[FileRecord::NextSlot(3)][..], &rows].concat());
        let number = bench.refusal(Call::Load { file });
        same(
            (number, bench.state().held.len()),
            if is_read { (None, 2) } else { (Some(8), 0) },
        )?;
    }
    Ok(())
}

/// The source reads no row with 0 copies, and starts from none that it wrote; the product reads it (request Five).
fn rows_without_copies() -> Outcome {
    let (held, beside) = (carried(VERIFIED, tag(1), 100, 0), tombstone(tag(2), 3));
    let blobs = [&held, &beside].map(raw::blob);
    let rows = [(1, blobs[0].clone()), (2, blobs[1].clone())];
    same(raw::restore(&rows, 8), None)?;
    let mut source = lived();
    source.put_held(4, &held);
    holds(source.restarted().is_none(), "the source refuses its own row")?;
    let mut bench = Bench::new(SIZES);
    let blob = blobs[0].clone().into();
    same(bench.call(Call::RowRead { blob }), Answer::Row(Some(held.clone())))?;
    let [first, second] = blobs;
    let file = encode_file(&[
        FileRecord::NextSlot(3),
        FileRecord::Row(b'C', 1, first),
        FileRecord::Row(b'T', 2, second),
    ]);
    same(bench.call(Call::Load { file }), Answer::nothing())?;
    let rows = [(1, held), (2, beside)].map(|(slot, held)| HeldRow { slot, held });
    same(bench.state().held, rows.to_vec())
}

pub const CHECKS: &[Check] = &[
    ("restore takes what a load refuses", restore_is_no_load),
    ("what restore makes anew", restore_begins_anew),
    ("what a load leaves", load_leaves_the_rest),
    ("rows over 2,064 bytes", long_rows),
    ("carried rows with 0 copies: request Five", rows_without_copies),
];

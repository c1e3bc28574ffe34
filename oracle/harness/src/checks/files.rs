//! Row blobs and the saved file, under document 01's load and save.

use super::bench::*;
use super::{Check, Outcome, same};
use post::{Answer, Bytes, Call, FileRecord, Held, Sizes, encode_file};
use reference::raw;

pub const ROOMY: Sizes = Sizes {
    carried_cells: 256,
    own_cells: 4,
    tombstone_rows: 4,
    bad_rows: 4,
    exchanges: 1,
};

pub fn next(slot: u64) -> FileRecord {
    FileRecord::NextSlot(slot)
}

pub fn row(slot: u64, held: &Held) -> FileRecord {
    FileRecord::Row(if held.is_carried() { b'C' } else { b'T' }, slot, raw::blob(held))
}

pub fn numbered(depositor: u64, number: u64) -> Held {
    let mut tag = tag(0xc0);
    tag[8..].copy_from_slice(&number.to_be_bytes());
    carried(depositor, tag, 100, 4)
}

pub fn loads(sizes: Sizes, file: Bytes) -> Answer {
    Bench::new(sizes).call(Call::Load { file })
}

pub fn refused(records: &[FileRecord]) -> Outcome {
    same(loads(ROOMY, encode_file(records)), Answer::Refused(8))
}

fn saved_bytes() -> Outcome {
    let mut bench = Bench::new(ROOMY);
    bench.deposit(1);
    let stored = bench.stored_call(2);
    bench.call(stored);
    let file = bench.save();
    same(file.len(), 10 + 12 + 94 + 12 + 37)?;
    same(&file[..10], b"HN\0\0\0\0\0\0\0\x02")?;
    same(&file[10..22], b"HC\0\0\0\0\0\0\0\0\0\x5e")?;
    same(&file[116..128], b"HT\0\0\0\0\0\0\0\x01\0\x25")?;
    let before = bench.state();
    same(bench.call(Call::Load { file }), Answer::nothing())?;
    same(bench.state(), before)
}

fn any_order() -> Outcome {
    let rows = [
        row(4, &numbered(VERIFIED, 1)),
        row(9, &tombstone(tag(2), 0)),
        row(2, &numbered(UNVERIFIED, 2)),
    ];
    let mut bench = Bench::new(ROOMY);
    let file = encode_file(&[&[next(11)][..], &rows].concat());
    same(bench.call(Call::Load { file }), Answer::nothing())?;
    let state = bench.state();
    same(state.held.iter().map(|row| row.slot).collect(), vec![2, 4, 9])?;
    same(state.next_slot, 11)
}

fn wrong_marks_and_places() -> Outcome {
    let held = numbered(VERIFIED, 1);
    let tombstoned = tombstone(tag(2), 3);
    refused(&[])?;
    refused(&[row(1, &held)])?;
    refused(&[row(1, &held), next(5)])?;
    refused(&[next(5), row(1, &held), next(5)])?;
    refused(&[next(5), FileRecord::Row(b'X', 1, raw::blob(&held))])?;
    refused(&[next(5), FileRecord::Row(b'T', 1, raw::blob(&held))])?;
    refused(&[next(5), FileRecord::Row(b'C', 1, raw::blob(&tombstoned))])
}

fn wrong_lengths() -> Outcome {
    let file = encode_file(&[next(5), row(1, &numbered(VERIFIED, 1))]);
    for cut in 1..file.len() {
        let want = if cut == 10 {
            Answer::nothing()
        } else {
            Answer::Refused(8)
        };
        same(loads(ROOMY, file[..cut].into()), want)?;
    }
    for extra in 1..13 {
        let mut longer = file.clone();
        longer.extend_from_slice(&[b'H'; 12][..extra]);
        same(loads(ROOMY, longer), Answer::Refused(8))?;
    }
    Ok(())
}

fn wrong_blobs() -> Outcome {
    refused(&[next(5), row(1, &carried(VERIFIED, tag(1), 0, 4))])?;
    let mut long = raw::blob(&tombstone(tag(1), 3));
    long.push(0);
    refused(&[next(5), FileRecord::Row(b'T', 1, long)])?;
    refused(&[next(5), FileRecord::Row(b'T', 1, Vec::new())])?;
    let mut kind = raw::blob(&tombstone(tag(1), 3));
    kind[0] = 2;
    refused(&[next(5), FileRecord::Row(b'T', 1, kind)])
}

fn slots_tags_depositors() -> Outcome {
    let held = numbered(VERIFIED, 1);
    refused(&[next(5), row(1, &held), row(1, &tombstone(tag(2), 3))])?;
    refused(&[next(5), row(5, &held)])?;
    refused(&[next(0), row(0, &held)])?;
    refused(&[next(5), row(1, &held), row(2, &held)])?;
    refused(&[next(5), row(1, &numbered(STRANGER, 1))])?;
    let tombstoned = tombstone(tag(2), 3);
    same(
        loads(ROOMY, encode_file(&[next(5), row(1, &tombstoned), row(2, &tombstoned)])),
        Answer::nothing(),
    )?;
    let last = encode_file(&[next(u64::MAX), row(u64::MAX - 1, &tombstoned)]);
    same(loads(ROOMY, last), Answer::nothing())
}

pub fn depositor_rows(depositor: u64, count: u64) -> Vec<FileRecord> {
    let rows = (0..count).map(|number| row(number, &numbered(depositor, number)));
    [next(5000)].into_iter().chain(rows).collect()
}

fn rows_of_one() -> Outcome {
    same(
        loads(ROOMY, encode_file(&depositor_rows(VERIFIED, 32))),
        Answer::nothing(),
    )?;
    same(
        loads(ROOMY, encode_file(&depositor_rows(UNVERIFIED, 32))),
        Answer::nothing(),
    )?;
    refused(&depositor_rows(VERIFIED, 33))
}

fn rows_in_all() -> Outcome {
    for (rows, want) in [(256, Answer::nothing()), (257, Answer::Refused(8))] {
        let mut bench = Bench::new(ROOMY);
        let mut records = vec![next(5000)];
        for number in 0..rows {
            let id = 1000 + number / 32;
            bench.call(Call::Contact {
                id,
                verification: post::Verification::Unverified,
            });
            records.push(row(number, &numbered(id, number)));
        }
        let file = encode_file(&records);
        same(bench.call(Call::Load { file }), want)?;
    }
    Ok(())
}

fn places_of_a_load() -> Outcome {
    let carried: Vec<FileRecord> = (0..3).map(|number| row(number, &numbered(VERIFIED, number))).collect();
    let tombstones: Vec<FileRecord> = (3..6u8)
        .map(|number| row(number.into(), &tombstone(tag(number), 3)))
        .collect();
    let file = |carried: &[FileRecord], tombstones: &[FileRecord]| {
        encode_file(&[&[next(9)][..], carried, tombstones].concat())
    };
    same(loads(SIZES, file(&carried[..2], &tombstones[..2])), Answer::nothing())?;
    same(loads(SIZES, file(&carried, &tombstones)), Answer::Refused(4))?;
    same(loads(SIZES, file(&carried[..2], &tombstones)), Answer::Refused(5))
}

/// A load replaces held rows and next slot, nothing else.
fn what_a_load_replaces() -> Outcome {
    let mut bench = Bench::new(ROOMY);
    bench.deposit(1);
    let own = bench.own_call(UNVERIFIED, 1, 48);
    bench.call(own);
    bench.call(Call::Failed {
        peer: VERIFIED,
        tag: tag(7),
    });
    let areas = bench.areas;
    bench.call(Call::FreshExchange {
        areas,
        exchange: 0,
        peer: VERIFIED,
    });
    bench.call(Call::Inventory {
        areas,
        window: Vec::new().into(),
        exchange: 0,
        peer: VERIFIED,
        prefixes: Vec::new().into(),
    });
    let mut before = bench.state();
    same(before.exchanges[0].offered.len(), 2)?;
    let file = encode_file(&[next(77)]);
    bench.call(Call::Load { file });
    before.held.clear();
    before.next_slot = 77;
    same(bench.state(), before)
}

pub const CHECKS: &[Check] = &[
    ("the bytes of a saved file, and the file loaded again", saved_bytes),
    ("rows may stand in any order", any_order),
    ("8: marks, their kinds, the place of HN", wrong_marks_and_places),
    ("8: every cut and every tail of a file", wrong_lengths),
    ("8: blobs that are refused", wrong_blobs),
    ("8: slots, carried tags, depositors", slots_tags_depositors),
    ("8: over 32 of one depositor, whatever its verification", rows_of_one),
    ("8: over 256 carried rows", rows_in_all),
    ("8, then 4, then 5", places_of_a_load),
    (
        "a load replaces held rows and next slot, nothing else",
        what_a_load_replaces,
    ),
];

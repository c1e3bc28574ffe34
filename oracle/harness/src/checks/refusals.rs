//! The table of refused calls: each number at its boundary, and their order.

use super::bench::*;
use super::{Check, Outcome, holds, same};
use post::{Answer, Areas, Bytes, Call, ChainRow, Custody, Kind, SkippedRow, Verification};
use post::{encode_chains, encode_skipped, encode_window};

/// One call of each kind that a peer brings, with these areas.
fn peer_calls(areas: Areas) -> Vec<Call> {
    let (peer, tag, secret, exchange) = (VERIFIED, tag(1), SECRET, 0);
    let none = || Bytes::from(Vec::new());
    vec![
        Call::FreshExchange { areas, exchange, peer },
        Call::Envelope {
            areas,
            window: none(),
            peer,
            envelope: envelope(tag, 100, 1),
        },
        Call::Inventory {
            areas,
            window: none(),
            exchange,
            peer,
            prefixes: none(),
        },
        Call::Fetch { areas, peer, tag },
        Call::CustodyCode {
            areas,
            exchange,
            peer,
            tag,
            code: Custody::Full,
        },
        Call::Tomb {
            areas,
            peer,
            tag,
            secret,
        },
    ]
}

/// One call of each kind that has areas, with these.
fn calls(areas: Areas) -> Vec<Call> {
    let (peer, tag, secret, expiry) = (VERIFIED, tag(1), SECRET, 100);
    let mut calls = peer_calls(areas);
    calls.extend([
        Call::Opened {
            areas,
            peer,
            tag,
            secret,
            expiry,
        },
        Call::StoredTombstone {
            areas,
            tag,
            secret,
            expiry,
        },
        Call::Maintenance { areas },
        Call::InventoryOfOurs { areas, peer },
        Call::Window {
            areas,
            skipped: Bytes::default(),
            chains: Bytes::default(),
        },
        Call::RowBlob { areas, slot: 0 },
        Call::Save { areas },
        Call::Page { areas, number: 0 },
    ]);
    calls
}

/// Which of replies, prefixes, offers and actions a call asks for, and how long an answer.
fn asks(kind: Kind) -> ([bool; 4], usize) {
    let file = 10 + 2_122 * SIZES.carried_cells + 49 * SIZES.tombstone_rows;
    match kind {
        Kind::FreshExchange => ([false, true, true, false], 0),
        Kind::Envelope | Kind::Opened => ([true, false, false, true], 0),
        Kind::Inventory => ([true, true, true, false], 0),
        Kind::Fetch => ([true, false, false, false], 0),
        Kind::CustodyCode => ([false, true, true, true], 0),
        Kind::Tomb | Kind::StoredTombstone | Kind::Maintenance => ([false, false, false, true], 0),
        Kind::InventoryOfOurs => ([false; 4], 4_096),
        Kind::Window => ([false; 4], 3_000),
        Kind::RowBlob => ([false; 4], 2_110),
        Kind::Save => ([false; 4], file),
        Kind::Page => ([false; 4], 1_620),
        _ => ([false; 4], 0),
    }
}

/// Only the areas that a call asks for are there, to the byte; and then each is a byte short.
fn areas_to_the_byte() -> Outcome {
    let full = [61_440, 4_096, 8_704, 13 * (512 + SIZES.tombstone_rows)];
    let nothing = Areas {
        replies: 0,
        prefixes: 0,
        offers: 0,
        actions: 0,
        answer: 0,
    };
    for (place, kind) in calls(nothing).iter().map(Call::kind).enumerate() {
        let (asked, answer) = asks(kind);
        let length = |field: usize| if asked[field] { full[field] } else { 0 };
        let exact = Areas {
            replies: length(0),
            prefixes: length(1),
            offers: length(2),
            actions: length(3),
            answer,
        };
        let number = |areas: Areas| Bench::new(SIZES).refusal(calls(areas)[place].clone());
        holds(number(exact) != Some(1), &format!("{kind:?} has what it asks for"))?;
        for short in shorter(exact) {
            same((kind, number(short)), (kind, Some(1)))?;
        }
    }
    Ok(())
}

/// Each area that is there a byte shorter.
fn shorter(exact: Areas) -> Vec<Areas> {
    let fields: [fn(&mut Areas) -> &mut usize; 5] = [
        |areas| &mut areas.replies,
        |areas| &mut areas.prefixes,
        |areas| &mut areas.offers,
        |areas| &mut areas.actions,
        |areas| &mut areas.answer,
    ];
    let one_less = |field: &fn(&mut Areas) -> &mut usize| {
        let mut short = exact;
        let length = field(&mut short);
        *length = length.checked_sub(1)?;
        Some(short)
    };
    fields.iter().filter_map(one_less).collect()
}

fn with_window(rows: Bytes) -> Call {
    Call::Envelope {
        areas: Areas::enough(&SIZES),
        window: rows,
        peer: VERIFIED,
        envelope: envelope(tag(1), 100, 1),
    }
}

fn unknown_contacts() -> Outcome {
    let areas = Areas::enough(&SIZES);
    for mut call in calls(areas) {
        let fresh = Bench::new(SIZES).refusal(call.clone());
        let named = stranger(&mut call);
        let number = Bench::new(SIZES).refusal(call);
        same(number, if named { Some(2) } else { fresh })?;
    }
    let window = encode_window(&[window_row(STRANGER, 0, tag(9))]);
    same(Bench::new(SIZES).refusal(with_window(window)), Some(2))?;
    same(
        Bench::new(SIZES).refusal(Call::Failed {
            peer: STRANGER,
            tag: tag(1),
        }),
        Some(2),
    )?;
    let mut bench = Bench::new(SIZES);
    let own = bench.own_call(STRANGER, 1, 48);
    same(bench.refusal(own), Some(2))
}

/// Names an unknown peer, where the call has one.
fn stranger(call: &mut Call) -> bool {
    match call {
        Call::FreshExchange { peer, .. }
        | Call::Envelope { peer, .. }
        | Call::Inventory { peer, .. }
        | Call::Fetch { peer, .. }
        | Call::CustodyCode { peer, .. }
        | Call::Tomb { peer, .. }
        | Call::Opened { peer, .. }
        | Call::InventoryOfOurs { peer, .. } => {
            *peer = STRANGER;
            true
        }
        _ => false,
    }
}

fn other_exchanges() -> Outcome {
    let areas = Areas::enough(&SIZES);
    let mut bench = Bench::new(SIZES);
    let calls = calls(areas);
    same(bench.refusal(calls[2].clone()), Some(3))?;
    same(bench.refusal(calls[4].clone()), Some(3))?;
    bench.call(Call::FreshExchange {
        areas,
        exchange: 0,
        peer: UNVERIFIED,
    });
    same(bench.refusal(calls[2].clone()), Some(3))?;
    bench.call(calls[0].clone());
    same(bench.refusal(calls[2].clone()), None)?;
    same(bench.refusal(calls[4].clone()), None)
}

fn cells() -> Outcome {
    let mut bench = Bench::new(SIZES);
    same(bench.deposit(1), bench.deposit_answer(1, 0, Custody::Accepted))?;
    bench.deposit(2);
    let before = bench.state();
    same(bench.deposit(3), Answer::Refused(4))?;
    same(bench.deposit(1), bench.deposit_answer(1, 0, Custody::Duplicate))?;
    holds(bench.state() == before, "nothing changed")?;
    for message in 0..3 {
        let own = bench.own_call(VERIFIED, message, 48);
        let want = if message < 2 { None } else { Some(4) };
        same(bench.refusal(own), want)?;
    }
    let long = bench.own_call(VERIFIED, 9, 4064);
    same(bench.call(long), Answer::NoEnvelope)
}

fn tombstone_rows() -> Outcome {
    let mut bench = Bench::new(SIZES);
    bench.deposit(1);
    for byte in [7, 8] {
        let stored = bench.stored_call(byte);
        same(bench.refusal(stored), None)?;
    }
    let stored = bench.stored_call(9);
    same(bench.refusal(stored), Some(5))?;
    let again = bench.stored_call(8);
    same(bench.refusal(again), None)?;
    let turning = bench.tomb_call(tag(1), SECRET);
    same(bench.refusal(turning), Some(5))?;
    let wrong = bench.tomb_call(tag(1), WRONG_SECRET);
    same(bench.refusal(wrong), None)?;
    let unknown = bench.tomb_call(tag(99), SECRET);
    same(bench.refusal(unknown), None)
}

/// At 1,024 the deletion comes first: with R = 1,024 a row is left.
fn after_any_deletion() -> Outcome {
    for (rows, want) in [(1023, Some(5)), (1024, None)] {
        let mut bench = Bench::new(post::Sizes {
            tombstone_rows: rows,
            ..SIZES
        });
        for number in 0..rows {
            let mut tag = tag(0xd0);
            tag[..8].copy_from_slice(&number.to_be_bytes());
            bench.store(tag, 50);
        }
        let stored = bench.stored_call(1);
        same(bench.refusal(stored), want)?;
    }
    Ok(())
}

fn at_the_last_slot(next: u64) -> Bench {
    let mut bench = Bench::new(SIZES);
    let held = carried(VERIFIED, tag(1), 100, 2);
    let row = post::FileRecord::Row(b'C', 3, reference::raw::blob(&held));
    let file = post::encode_file(&[post::FileRecord::NextSlot(next), row]);
    bench.call(Call::Load { file });
    bench
}

fn last_slot() -> Outcome {
    let mut bench = at_the_last_slot(u64::MAX - 1);
    let stored = bench.stored_call(7);
    same(bench.refusal(stored), None)?;
    same(bench.deposit(8), Answer::Refused(6))?;
    let stored = bench.stored_call(9);
    same(bench.refusal(stored), Some(6))?;
    same(bench.deposit(1), bench.deposit_answer(1, 0, Custody::Duplicate))?;
    let turning = bench.tomb_call(tag(1), SECRET);
    same(bench.refusal(turning), None)?;
    same(bench.state().next_slot, u64::MAX)
}

fn bad_tags() -> Outcome {
    let mut bench = Bench::new(SIZES);
    let failed = |byte| Call::Failed {
        peer: VERIFIED,
        tag: tag(byte),
    };
    same(bench.refusal(failed(1)), None)?;
    same(bench.refusal(failed(2)), Some(9))?;
    same(bench.refusal(failed(1)), None)?;
    same(bench.state().bad.len(), 1)
}

fn messages_and_sizes() -> Outcome {
    let mut bench = Bench::new(SIZES);
    let own = |bench: &Bench, contact, message, length| bench.own_call(contact, message, length);
    let call = own(&bench, VERIFIED, 1, 48);
    same(bench.refusal(call.clone()), None)?;
    same(bench.refusal(call), Some(10))?;
    let call = own(&bench, VERIFIED, 1, 49);
    same(bench.refusal(call), Some(10))?;
    for (length, want) in [
        (47, Some(11)),
        (49, Some(11)),
        (2065, Some(11)),
        (4063, Some(11)),
        (4064, None),
        (0, Some(11)),
    ] {
        let call = own(&bench, UNVERIFIED, 1, length);
        same((length, bench.refusal(call)), (length, want))?;
    }
    let call = own(&bench, UNVERIFIED, 1, 2064);
    same(bench.refusal(call), None)
}

fn windows() -> Outcome {
    let row = |contact, index| window_row(contact, index, tag(9));
    let mut wrong_dir = row(VERIFIED, 0);
    wrong_dir.dir = b'J';
    let cases = [
        (
            encode_window(&[row(VERIFIED, 0), row(VERIFIED, 1), row(UNVERIFIED, 0)]),
            None,
        ),
        (encode_window(&[row(VERIFIED, 1), row(VERIFIED, 1)]), Some(12)),
        (encode_window(&[row(VERIFIED, 1), row(VERIFIED, 0)]), Some(12)),
        (encode_window(&[row(UNVERIFIED, 0), row(VERIFIED, 1)]), Some(12)),
        (encode_window(&[wrong_dir]), Some(12)),
        (vec![0; 29].into(), Some(12)),
        (vec![0; 31].into(), Some(12)),
    ];
    for (window, want) in cases {
        same(Bench::new(SIZES).refusal(with_window(window)), want)?;
    }
    Ok(())
}

fn window_inputs() -> Outcome {
    let skipped = |count: usize| {
        let row = SkippedRow {
            dir: b'I',
            generation: 0,
            index: 0,
        };
        encode_skipped(&vec![row; count])
    };
    let chain = |next| {
        encode_chains(&[ChainRow {
            dir: b'R',
            generation: 0,
            next,
        }])
    };
    let none = || Bytes::from(Vec::new());
    let cases = [
        (skipped(500), chain(1 << 32), None),
        (skipped(501), none(), Some(12)),
        (none(), chain((1 << 32) + 1), Some(12)),
        (none(), chain(u64::MAX), Some(12)),
        (vec![b'I'; 5].into(), none(), Some(12)),
        (none(), vec![b'I'; 9].into(), Some(12)),
        (vec![b'Q'; 6].into(), none(), Some(12)),
        (none(), [b'i', 0, 0, 0, 0, 0, 0, 0, 0, 0].as_slice().into(), Some(12)),
    ];
    for (skipped, chains, want) in cases {
        let areas = Areas::enough(&SIZES);
        same(Bench::new(SIZES).refusal(Call::Window { areas, skipped, chains }), want)?;
    }
    Ok(())
}

fn contacts() -> Outcome {
    let mut bench = Bench::new(SIZES);
    let contact = |id| Call::Contact {
        id,
        verification: Verification::Verified,
    };
    for id in 1000..1253 {
        same(bench.refusal(contact(id)), None)?;
    }
    same(bench.state().contacts.len(), 256)?;
    same(bench.refusal(contact(2000)), Some(13))?;
    same(bench.refusal(contact(UNVERIFIED)), None)?;
    same(bench.state().contacts[1].verification, Verification::Verified)
}

/// An envelope that meets 1, 12, 2, 4 and 6 at once; one after another is mended.
fn order() -> Outcome {
    let mut bench = at_the_last_slot(u64::MAX - 1);
    bench.deposit(2);
    let mut areas = Areas::enough(&SIZES);
    let call = |areas: Areas, bytes: usize, peer: u64| Call::Envelope {
        areas,
        window: vec![0; bytes].into(),
        peer,
        envelope: envelope(tag(77), 100, 1),
    };
    same(bench.state().next_slot, u64::MAX)?;
    areas.replies -= 1;
    same(bench.refusal(call(areas, 31, STRANGER)), Some(1))?;
    areas.replies += 1;
    same(bench.refusal(call(areas, 31, STRANGER)), Some(12))?;
    same(bench.refusal(call(areas, 0, STRANGER)), Some(2))?;
    same(bench.refusal(call(areas, 0, VERIFIED)), Some(4))?;
    let turning = bench.tomb_call(tag(2), SECRET);
    same(bench.refusal(turning), None)?;
    same(bench.refusal(call(areas, 0, VERIFIED)), Some(6))
}

pub const CHECKS: &[Check] = &[
    ("1: every area to the byte", areas_to_the_byte),
    ("2: an unknown contact, in a window row too", unknown_contacts),
    ("3: an exchange opened for another contact or for none", other_exchanges),
    ("4: cells all used, only where the code would be Accepted", cells),
    ("5: R rows used, only where a tombstone would be added", tombstone_rows),
    ("5: after any deletion", after_any_deletion),
    ("6: next slot 2^64 - 1, only where a new slot is needed", last_slot),
    ("9: a new bad tag and no row left", bad_tags),
    ("10 and 11: message numbers and own ciphertexts", messages_and_sizes),
    ("12: windows", windows),
    ("12: skipped rows and chain rows", window_inputs),
    ("13: a 257th contact", contacts),
    ("the order 1, 12, 2, 4, 6", order),
];

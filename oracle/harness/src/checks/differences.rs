//! Where the source and document 01 differ by design: what the source does, and what the product does.
//! docs/DIFFERENCES.md lists them with these inputs.

use super::bench::*;
use super::{Check, Outcome, holds, limit, same, stops};
use post::{Action, Areas, Call, ChainRow, Custody, NewOwn, Reply, SkippedRow, Verification};
use reference::raw;

fn skipped(count: usize) -> Vec<SkippedRow> {
    let row = SkippedRow {
        dir: b'I',
        generation: 0,
        index: 0,
    };
    vec![row; count]
}

fn product_window(skipped: &[SkippedRow], chains: &[ChainRow]) -> Option<u8> {
    Bench::new(SIZES).refusal(Call::Window {
        areas: Areas::enough(&SIZES),
        skipped: post::encode_skipped(skipped),
        chains: post::encode_chains(chains),
    })
}

fn over_500_skipped() -> Outcome {
    stops(|| raw::window(&skipped(501), &[]))?;
    same(product_window(&skipped(501), &[]), Some(12))
}

fn next_above_the_indices() -> Outcome {
    let chain = |next| ChainRow {
        dir: b'I',
        generation: 0,
        next,
    };
    same(raw::window(&[], &[chain((1 << 32) + 1)]), vec![])?;
    stops(|| raw::window(&[], &[chain(u64::MAX)]))?;
    same(product_window(&[], &[chain((1 << 32) + 1)]), Some(12))?;
    same(product_window(&[], &[chain(u64::MAX)]), Some(12))
}

fn last_slot() -> Outcome {
    stops(|| {
        let mut source = source();
        source.set_next_slot(u64::MAX);
        source.envelope(VERIFIED, &envelope(tag(1), 100, 1), &[])
    })?;
    stops(|| {
        let mut source = source();
        source.set_next_slot(u64::MAX);
        source.store_tombstone(tag(1), SECRET, 9)
    })
}

/// The source has no R and no cells.
fn no_places() -> Outcome {
    let mut source = source();
    for byte in 1..=3 {
        same(
            code(&source.envelope(VERIFIED, &envelope(tag(byte), 100, 1), &[])),
            Some(Custody::Accepted),
        )?;
        holds(!source.tomb(VERIFIED, tag(byte), SECRET).malformed, "turned")?;
    }
    same(source.held_counts(), (0, 3))?;
    let mut bench = Bench::new(SIZES);
    for byte in 1..=2 {
        bench.deposit(byte);
        let turning = bench.tomb_call(tag(byte), SECRET);
        bench.call(turning);
    }
    bench.deposit(3);
    let turning = bench.tomb_call(tag(3), SECRET);
    same(bench.refusal(turning), Some(5))
}

/// Without the peer among the contacts the source answers, acts or stops, by the call.
fn unknown_peers() -> Outcome {
    let sent = envelope(tag(1), 100, 1);
    stops(|| source().envelope(STRANGER, &sent, &[]))?;
    let mut post = source();
    same(
        code(&post.envelope(STRANGER, &envelope(tag(1), 1, 1), &[])),
        Some(Custody::Invalid),
    )?;
    post.put_held(0, &carried(VERIFIED, tag(1), 100, 1));
    same(code(&post.envelope(STRANGER, &sent, &[])), Some(Custody::Duplicate))?;
    same(post.fetch(STRANGER, tag(1)).replies.len(), 1)?;
    same(post.inventory_of_ours(STRANGER)[0].len(), 1)?;
    same(
        post.tomb(STRANGER, tag(1), SECRET).actions,
        vec![Action::Put { slot: 0 }],
    )?;
    post.setting(false, 6, 1440);
    same(code(&post.envelope(STRANGER, &sent, &[])), Some(Custody::Off))?;
    stops(|| source().inventory(0, STRANGER, Vec::new(), &[]))?;
    stops(|| source().custody_code(0, STRANGER, tag(1), 0))?;
    same(
        post.opened(STRANGER, tag(2), SECRET, 100).replies,
        vec![Reply::Tomb(tag(2), SECRET)],
    )?;
    post.failed(STRANGER, tag(2), false);
    holds(post.is_bad(STRANGER, &tag(2)), "a bad tag of the stranger")
}

/// Without the contact: an own envelope stops, unless it gets none before the contact is looked for. An exchange that is open is answered.
fn unknown_contacts() -> Outcome {
    let new = |length| NewOwn {
        contact: STRANGER,
        ..new_own(1, length)
    };
    stops(|| source().own_envelope(&new(48)))?;
    same(source().own_envelope(&new(4_064)), None)?;
    let mut post = source();
    post.put_held(0, &carried(VERIFIED, tag(1), 100, 4));
    post.fresh_exchange(0, STRANGER);
    let offer = Reply::Envelope(envelope(tag(1), 100, 2));
    same(listed(&mut post, 0, STRANGER, &[prefix(2)], &[]), vec![offer])?;
    let taken = post.custody_code(0, STRANGER, tag(1), 0);
    same(
        (taken.actions, copies(&post, tag(1))),
        (vec![Action::Put { slot: 0 }], Some(2)),
    )
}

/// The product looks for the contact first, whatever else is wrong with the call.
fn unknown_to_the_product() -> Outcome {
    let mut bench = Bench::new(SIZES);
    let (areas, exchange, peer) = (bench.areas, 0, STRANGER);
    let open = Call::FreshExchange {
        areas,
        exchange,
        peer: VERIFIED,
    };
    for before in [None, Some(open)] {
        before.map(|open| bench.call(open));
        let calls = [
            bench.own_call(peer, 1, 48),
            bench.own_call(peer, 1, 49),
            bench.own_call(peer, 1, 4_064),
            Call::FreshExchange { areas, exchange, peer },
            Call::Inventory {
                areas,
                window: Vec::new().into(),
                exchange,
                peer,
                prefixes: Vec::new().into(),
            },
            Call::CustodyCode {
                areas,
                exchange,
                peer,
                tag: tag(1),
                code: Custody::Accepted,
            },
        ];
        for call in calls {
            same(bench.refusal(call), Some(2))?;
        }
    }
    Ok(())
}

/// An exchange opened for another contact, or for none, is no session of the peer.
fn other_exchange() -> Outcome {
    stops(|| source().inventory(0, UNVERIFIED, Vec::new(), &[]))?;
    stops(|| reference::Source::new(1).custody_code(0, VERIFIED, tag(1), 0))
}

fn contact_rows_around_reports() -> Outcome {
    same(source().opened(VERIFIED, tag(1), SECRET, 100).contact_rows, 1)?;
    same(source().failed(VERIFIED, tag(1), false).contact_rows, 1)
}

/// The source opens an envelope of ours at once; the product answers "ours", and the host reports.
fn ours_is_reported() -> Outcome {
    let mut source = source();
    let raw = source.opened(VERIFIED, tag(1), SECRET, 100);
    same(raw.replies, vec![Reply::Tomb(tag(1), SECRET)])?;
    let mut bench = Bench::new(SIZES);
    let call = Call::Envelope {
        areas: bench.areas,
        window: post::encode_window(&[window_row(VERIFIED, 3, tag(1))]),
        peer: VERIFIED,
        envelope: envelope(tag(1), 100, 1),
    };
    let ours = post::Answer::Ours {
        contact: VERIFIED,
        generation: 0,
        index: 3,
    };
    same(bench.call(call), ours)
}

fn lists_of_500() -> Outcome {
    same(source().inventory_of_ours(VERIFIED), vec![vec![]])?;
    let mut bench = Bench::new(SIZES);
    bench.deposit(1);
    let areas = bench.areas;
    let listed = bench.call(Call::InventoryOfOurs { areas, peer: VERIFIED });
    same(listed, post::Answer::Listed(vec![prefix(1)]))
}

fn long_windows() -> Outcome {
    let rows: Vec<_> = (0..501).map(|index| window_row(VERIFIED, index, tag(1))).collect();
    stops(|| source().envelope(VERIFIED, &envelope(tag(1), 100, 1), &rows))
}

/// The source sorts its window; the product asks that keys rise.
fn window_order() -> Outcome {
    let rows = [
        window_row(VERIFIED, 1, tag_in(1, 2)),
        window_row(VERIFIED, 0, tag_in(1, 1)),
    ];
    let replies = listed(&mut source(), 0, VERIFIED, &[prefix(1)], &rows);
    same(replies, vec![Reply::Fetch(tag_in(1, 1))])?;
    let mut bench = Bench::new(SIZES);
    let areas = bench.areas;
    let number = bench.refusal(Call::Envelope {
        areas,
        window: post::encode_window(&rows),
        peer: VERIFIED,
        envelope: envelope(tag(3), 100, 1),
    });
    same(number, Some(12))
}

/// The source has one tag for each key; the product asks that keys rise, also where both rows are the same.
fn window_rows_of_one_key() -> Outcome {
    let tag = raw::route_tag(&raw::route_key_of(VERIFIED), b'I', 0, 3);
    let rows = [window_row(VERIFIED, 3, tag); 2];
    let prefix: post::Prefix = post::array(&tag, 0);
    let sent = envelope(tag, 100, 1);
    same(source().envelope(VERIFIED, &sent, &rows).ours, Some((VERIFIED, 0, 3)))?;
    same(
        listed(&mut source(), 0, VERIFIED, &[prefix], &rows),
        vec![Reply::Fetch(tag)],
    )?;
    let mut bench = Bench::new(SIZES);
    let (areas, exchange, peer) = (bench.areas, 0, VERIFIED);
    bench.call(Call::FreshExchange { areas, exchange, peer });
    let window = post::encode_window(&rows);
    let inventory = Call::Inventory {
        areas,
        window: window.clone(),
        exchange,
        peer,
        prefixes: Vec::new().into(),
    };
    let envelope = Call::Envelope {
        areas,
        window,
        peer,
        envelope: sent,
    };
    same([envelope, inventory].map(|call| bench.refusal(call)), [Some(12); 2])
}

/// Request Two: the source as it lies sends a fetch and a tomb for a tombstoned window tag, the product the tomb alone.
fn tombstoned_window_tag() -> Outcome {
    let tag = raw::route_tag(&raw::route_key_of(VERIFIED), b'I', 0, 3);
    let rows = [window_row(VERIFIED, 3, tag)];
    let prefix: post::Prefix = post::array(&tag, 0);
    let tomb = Reply::Tomb(tag, SECRET);
    let mut source = before::Source::new(1);
    source.contact(VERIFIED, Verification::Verified);
    source.clock(SECONDS);
    source.fresh_exchange(0, VERIFIED);
    source.store_tombstone(tag, SECRET, 100);
    source.inventory(0, VERIFIED, vec![prefix], &rows);
    let raw = source.inventory(0, VERIFIED, Vec::new(), &rows);
    same(raw.replies, vec![Reply::Fetch(tag), tomb.clone()])?;

    let mut bench = Bench::new(SIZES);
    let (areas, exchange, peer) = (bench.areas, 0, VERIFIED);
    let inventory = |prefixes: &[u8]| Call::Inventory {
        areas,
        window: post::encode_window(&rows),
        exchange,
        peer,
        prefixes: prefixes.into(),
    };
    bench.call(Call::FreshExchange { areas, exchange, peer });
    bench.store(tag, 100);
    bench.call(inventory(&prefix));
    let answer = post::Answer::Done {
        malformed: false,
        replies: vec![tomb],
        actions: Vec::new(),
        searched: 0,
    };
    same(bench.call(inventory(&[])), answer)
}

/// Request Four: with 1,024 tombstones there the source turns the row and has 1,025; the product deletes one first and has 1,024.
fn turned_at_the_limit() -> Outcome {
    let mut source = source();
    let mut rows = limit::tombstones(vec![50; 1024]);
    rows.insert(0, (0, carried(VERIFIED, tag(1), 77, 4)));
    for (slot, held) in &rows {
        source.put_held(*slot, held);
    }
    source.set_next_slot(2_000);
    let raw = source.tomb(VERIFIED, tag(1), SECRET);
    same(
        (raw.malformed, raw.actions, source.held_counts()),
        (false, vec![Action::Put { slot: 0 }], (0, 1025)),
    )?;

    let mut bench = limit::loaded(1024, &rows, 2_000);
    let tomb = bench.tomb_call(tag(1), SECRET);
    same(bench.call(tomb), limit::displaces(1, 0))?;
    let state = bench.state();
    same((state.carried().count(), state.tombstones().count()), (0, 1024))
}

fn long_labels() -> Outcome {
    stops(|| raw::labelled(&vec![0; 65_527]))
}

fn new_own(message: u32, length: usize) -> NewOwn {
    NewOwn {
        contact: VERIFIED,
        message,
        route_key: [9; 32],
        dir: post::Dir::I,
        generation: 0,
        index: message,
        secret: SECRET,
        ciphertext: vec![0; length].into(),
    }
}

/// The source's caller sees to message numbers and sizes; the product refuses with 10 and 11.
fn own_rows() -> Outcome {
    let mut source = source();
    holds(
        source.own_envelope(&new_own(1, 49)).is_some(),
        "any inner length up to 2,048",
    )?;
    own(&mut source, VERIFIED, 1, 4);
    let replaced = own(&mut source, VERIFIED, 1, 5);
    same(source.state().own.iter().map(|row| row.tag).collect(), vec![replaced])?;
    let mut bench = Bench::new(SIZES);
    let call = bench.own_call(VERIFIED, 1, 49);
    same(bench.refusal(call), Some(11))
}

/// The source keeps the queued message of an own row that has ended; the product has no row of it.
fn ended_messages_stay_queued() -> Outcome {
    let mut source = source();
    let mine = own(&mut source, VERIFIED, 1, 4);
    same(source.tomb(VERIFIED, mine, SECRET).ended, 1)?;
    let mut bench = Bench::new(SIZES);
    let call = bench.own_call(VERIFIED, 1, 48);
    bench.call(call.clone());
    let tag = bench.state().own[0].tag;
    let tomb = bench.tomb_call(tag, SECRET);
    bench.call(tomb);
    same(bench.refusal(call), None)
}

fn bad_tags_and_contacts() -> Outcome {
    let mut source = source();
    for byte in 0..40 {
        source.failed(VERIFIED, tag(byte), false);
    }
    same(source.bad_count(), 40)?;
    for id in 1000..1300 {
        source.contact(id, Verification::Verified);
    }
    same(source.contact_count(), 303)
}

/// A record of a wrong shape closes the link in the source; the product has 12 and 13.
fn wire_shapes() -> Outcome {
    const INVENTORY: u8 = 0x0e;
    const ENVELOPE: u8 = 0x10;
    const CUSTODY: u8 = 0x11;
    const TOMB: u8 = 0x12;
    holds(
        raw::wire_refuses(INVENTORY, &[0; 9]) && !raw::wire_refuses(INVENTORY, &[0; 8]),
        "whole prefixes",
    )?;
    holds(
        raw::wire_refuses(ENVELOPE, &[0; 36]) && !raw::wire_refuses(ENVELOPE, &[0; 37]),
        "37 bytes",
    )?;
    holds(
        raw::wire_refuses(TOMB, &[0; 31]) && !raw::wire_refuses(TOMB, &[0; 32]),
        "32 bytes",
    )?;
    for code in 0..=255u8 {
        let body = [&[0; 16][..], &[code]].concat();
        same(raw::wire_refuses(CUSTODY, &body), code > 4)?;
    }
    Ok(())
}

pub const CHECKS: &[Check] = &[
    ("over 500 skipped rows", over_500_skipped),
    ("a next above 2^32", next_above_the_indices),
    ("next slot 2^64 - 1", last_slot),
    ("cells and R", no_places),
    ("unknown peers", unknown_peers),
    ("unknown contacts of own envelopes and exchanges", unknown_contacts),
    ("unknown contacts, put to the product", unknown_to_the_product),
    ("exchanges of others", other_exchange),
    ("contact rows around reports", contact_rows_around_reports),
    ("ours, and reports", ours_is_reported),
    ("lists of 500", lists_of_500),
    ("over 500 window rows of one contact", long_windows),
    ("window rows not in order", window_order),
    ("two window rows of one key", window_rows_of_one_key),
    ("a window tag that is tombstoned: request Two", tombstoned_window_tag),
    (
        "a row that turns with 1,024 tombstones there: request Four",
        turned_at_the_limit,
    ),
    ("a label over 65,526 bytes", long_labels),
    ("own rows: message numbers and sizes", own_rows),
    ("own rows that have ended", ended_messages_stay_queued),
    ("bad tags and contacts without limit", bad_tags_and_contacts),
    ("records of a wrong shape", wire_shapes),
];

//! couriering.rs: an envelope that arrives, own rows, time.

use super::bench::*;
use super::{Check, Outcome, holds, same};
use post::{Action, Custody, NewOwn, Verification};
use reference::Source;

/// A courier that is off, an invalid envelope, a tag that is held, a depositor at its quota: in every mixture.
fn first_test_that_applies() -> Outcome {
    for mixture in 0..16u8 {
        let [off, invalid, duplicate, full] = [1, 2, 4, 8].map(|bit| mixture & bit != 0);
        let mut source = source();
        source.setting(!off, 6, 1440);
        let rows = if full { 16 } else { 15 };
        for slot in 0..rows {
            source.put_held(slot, &carried(UNVERIFIED, tag_in(9, slot as u8), 100, 4));
        }
        let sent = envelope(
            if duplicate { tag_in(9, 0) } else { tag(1) },
            if invalid { 10 } else { 11 },
            4,
        );
        let want = match (off, invalid, duplicate, full) {
            (true, ..) => Custody::Off,
            (_, true, ..) => Custody::Invalid,
            (_, _, true, _) => Custody::Duplicate,
            (_, _, _, true) => Custody::Full,
            _ => Custody::Accepted,
        };
        source.set_next_slot(100);
        same(code(&source.envelope(UNVERIFIED, &sent, &[])), Some(want))?;
    }
    Ok(())
}

fn duplicate_looks_everywhere() -> Outcome {
    let mut source = source();
    let own_tag = own(&mut source, VERIFIED, 1, 0);
    source.put_held(0, &carried(VERIFIED, tag(1), 5, 1));
    source.put_held(1, &tombstone(tag(2), 5));
    source.set_next_slot(2);
    for known in [own_tag, tag(1), tag(2)] {
        same(
            code(&source.envelope(VERIFIED, &envelope(known, 11, 1), &[])),
            Some(Custody::Duplicate),
        )?;
    }
    Ok(())
}

/// So many rows of a depositor, then an envelope more.
fn after_rows(peer: u64, rows: u64, expiry: u32) -> Option<Custody> {
    let mut source = source();
    for slot in 0..rows {
        source.put_held(slot, &carried(peer, tag_in(9, slot as u8), expiry, 4));
    }
    source.set_next_slot(1000);
    code(&source.envelope(peer, &envelope(tag(1), 11, 4), &[]))
}

fn quotas() -> Outcome {
    same(after_rows(UNVERIFIED, 15, 100), Some(Custody::Accepted))?;
    same(after_rows(UNVERIFIED, 16, 100), Some(Custody::Full))?;
    same(after_rows(COMPROMISED, 16, 100), Some(Custody::Full))?;
    same(after_rows(VERIFIED, 31, 100), Some(Custody::Accepted))?;
    same(after_rows(VERIFIED, 32, 100), Some(Custody::Full))
}

fn expired_rows_count() -> Outcome {
    same(after_rows(UNVERIFIED, 16, 10), Some(Custody::Full))?;
    same(after_rows(UNVERIFIED, 16, 1), Some(Custody::Full))
}

/// Rows of the greatest size, one depositor for each 32.
fn full_of_great_rows(rows: u64) -> Source {
    let mut source = source();
    for slot in 0..rows {
        let depositor = 1000 + slot / 32;
        source.contact(depositor, Verification::Verified);
        let post::Held::Carried { mut envelope, .. } = carried(depositor, tag(0), 100, 4) else {
            unreachable!("a carried row");
        };
        envelope.tag[..8].copy_from_slice(&slot.to_be_bytes());
        envelope.ciphertext = vec![0; 2064].into();
        source.put_held(slot, &post::Held::Carried { depositor, envelope });
    }
    source.set_next_slot(rows);
    source
}

/// 256 rows of 37 + 2,064 bytes are 537,856, below 1,048,576: the count decides, the bytes never.
fn bytes_never_decide() -> Outcome {
    let mut great = envelope(tag(1), 100, 4);
    great.ciphertext = vec![0; 2064].into();
    same(
        code(&full_of_great_rows(255).envelope(UNVERIFIED, &great, &[])),
        Some(Custody::Accepted),
    )?;
    same(
        code(&full_of_great_rows(256).envelope(UNVERIFIED, &great, &[])),
        Some(Custody::Full),
    )?;
    let state = full_of_great_rows(256).state();
    let bytes: usize = state
        .carried()
        .map(|(_, _, envelope)| 37 + envelope.ciphertext.len())
        .sum();
    same(bytes, 537_856)
}

fn accepted_is_the_lesser() -> Outcome {
    for (copies, expiry, want) in [
        (9, 100, (6, 100)),
        (3, 2000, (3, 1450)),
        (6, 1450, (6, 1450)),
        (255, u32::MAX, (6, 1450)),
    ] {
        let mut source = source();
        let raw = source.envelope(VERIFIED, &envelope(tag(1), expiry, copies), &[]);
        same(raw.actions, vec![Action::Put { slot: 0 }])?;
        let state = source.state();
        let (slot, depositor, held) = state.carried().next().ok_or("no row")?;
        same((slot, depositor, state.next_slot), (0, VERIFIED, 1))?;
        same((held.copies, held.expiry), want)?;
    }
    Ok(())
}

fn minutes_and_lifetime_ends() -> Outcome {
    let stopped = u64::from(u32::MAX) * 60;
    for (seconds, expiry, want) in [
        (659, 11, Some(11)),
        (660, 11, None),
        (stopped - 1, u32::MAX, Some(u32::MAX)),
        (stopped - 60, u32::MAX, Some(u32::MAX)),
        (stopped, u32::MAX, None),
        (u64::MAX, u32::MAX, None),
    ] {
        let mut source = source();
        source.clock(seconds);
        source.envelope(VERIFIED, &envelope(tag(1), expiry, 1), &[]);
        let expiry = source.state().carried().next().map(|(_, _, envelope)| envelope.expiry);
        same(expiry, want)?;
    }
    Ok(())
}

fn ours_in_the_window() -> Outcome {
    let mut source = source();
    source.setting(false, 6, 1440);
    let rows = [
        window_row(VERIFIED, 3, tag(8)),
        window_row(UNVERIFIED, 70_000, tag(7)),
        window_row(COMPROMISED, 1, tag(7)),
    ];
    let before = source.state();
    let raw = source.envelope(VERIFIED, &envelope(tag(7), 1, 0), &rows);
    same(raw.ours, Some((UNVERIFIED, 0, 70_000)))?;
    holds(
        raw.replies.is_empty() && raw.actions.is_empty() && !raw.malformed,
        "no reply, no action",
    )?;
    holds(source.state() == before, "nothing changes")
}

fn own_rows() -> Outcome {
    let mut source = source();
    source.setting(true, 3, 60);
    own(&mut source, UNVERIFIED, 4, 5);
    let row = source.state().own[0].clone();
    same((row.copies, row.expiry, row.renewed), (3, 70, false))?;
    same(row.tag, reference::raw::route_tag(&[9; 32], b'I', 2, 5))
}

fn no_envelope_at_256() -> Outcome {
    let mut source = source();
    for message in 0..256 {
        own(
            &mut source,
            if message % 2 == 0 { VERIFIED } else { UNVERIFIED },
            message,
            message,
        );
    }
    let mut new = NewOwn {
        contact: VERIFIED,
        message: 999,
        route_key: [0; 32],
        dir: post::Dir::R,
        generation: 0,
        index: 0,
        secret: SECRET,
        ciphertext: vec![0; 48].into(),
    };
    holds(source.own_envelope(&new).is_none(), "256 own rows are the most")?;
    let mut fresh = self::source();
    new.ciphertext = vec![0; 4064].into();
    holds(fresh.own_envelope(&new).is_none(), "inner 4,048 has no envelope")?;
    new.ciphertext = vec![0; 2064].into();
    holds(fresh.own_envelope(&new).is_some(), "inner 2,048 has one")
}

pub const CHECKS: &[Check] = &[
    (
        "Off, Invalid, Duplicate, Full: the first that applies, in every mixture",
        first_test_that_applies,
    ),
    (
        "Duplicate looks at own rows and every held row",
        duplicate_looks_everywhere,
    ),
    ("quotas of 16 and 32", quotas),
    ("expired rows count against the quota", expired_rows_count),
    ("the test against 1,048,576 bytes never decides", bytes_never_decide),
    ("Accepted: copies and expiry become the lesser", accepted_is_the_lesser),
    (
        "minutes and lifetime ends, stopped at 2^32 - 1",
        minutes_and_lifetime_ends,
    ),
    (
        "an envelope in the window is ours, before every test",
        ours_in_the_window,
    ),
    ("an own row's copies, expiry and tag", own_rows),
    ("no envelope for 4,048 or with 256 there", no_envelope_at_256),
];

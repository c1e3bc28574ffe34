//! couriering.rs: tombs, stored tombstones, reports, maintenance.

use super::bench::*;
use super::{Check, Outcome, holds, same};
use post::{Action, Held, Reply};
use reference::Source;

fn turned_keeps_slot_and_expiry() -> Outcome {
    let mut source = source();
    source.put_held(3, &carried(VERIFIED, tag(1), 77, 4));
    source.set_next_slot(9);
    let raw = source.tomb(UNVERIFIED, tag(1), SECRET);
    same(
        (raw.malformed, raw.actions, raw.replies),
        (false, vec![Action::Put { slot: 3 }], vec![]),
    )?;
    same(source.state().held[0].held.clone(), tombstone(tag(1), 77))?;
    same((source.state().held.len(), source.next_slot()), (1, 9))
}

fn wrong_secrets() -> Outcome {
    let mut source = source();
    let shared = own(&mut source, VERIFIED, 1, 0);
    let Held::Carried { mut envelope, .. } = carried(VERIFIED, shared, 77, 4) else {
        unreachable!("a carried row");
    };
    envelope.commitment = [0; 16];
    source.put_held(
        3,
        &Held::Carried {
            depositor: VERIFIED,
            envelope,
        },
    );
    let before = source.state();
    holds(
        source.tomb(VERIFIED, shared, SECRET).malformed,
        "wrong for the carried row, right for the own one",
    )?;
    holds(source.state() == before, "nothing changes")?;
    source.remove_held(3);
    holds(
        source.tomb(VERIFIED, shared, WRONG_SECRET).malformed,
        "wrong for the own row",
    )?;
    holds(!source.tomb(VERIFIED, shared, SECRET).malformed, "right for it")
}

fn unknown_tags() -> Outcome {
    let mut source = source();
    source.put_held(0, &tombstone(tag(1), 77));
    let before = source.state();
    let raw = source.tomb(VERIFIED, tag(1), WRONG_SECRET);
    holds(!raw.malformed && raw.actions.is_empty(), "only a tombstone has the tag")?;
    let raw = source.tomb(VERIFIED, tag(2), SECRET);
    holds(
        !raw.malformed && raw.actions.is_empty() && source.state() == before,
        "nothing has the tag",
    )
}

fn ended_own_row() -> Outcome {
    let mut source = source();
    let mine = own(&mut source, UNVERIFIED, 3, 0);
    let own_put = Action::OwnPut {
        contact: UNVERIFIED,
        message: 3,
    };
    same(
        source.tomb(VERIFIED, mine, SECRET).actions,
        vec![own_put, Action::Put { slot: 0 }],
    )?;
    holds(source.state().own.is_empty(), "it is no longer held")?;
    same(source.state().held[0].held.clone(), tombstone(mine, 1450))
}

/// So many tombstones of these expiries in slots 1, 2, ..
fn with_tombstones(expiries: impl Iterator<Item = u32>) -> Source {
    let mut source = source();
    for (slot, expiry) in (1u64..).zip(expiries) {
        let mut tag = tag(0xd0);
        tag[..8].copy_from_slice(&slot.to_be_bytes());
        source.put_held(slot, &tombstone(tag, expiry));
        source.set_next_slot(slot + 1);
    }
    source
}

fn limit_of_1024() -> Outcome {
    let mut source = with_tombstones((0..1023).map(|_| 50));
    same(
        source.store_tombstone(tag(1), SECRET, 9).actions,
        vec![Action::Put { slot: 1024 }],
    )?;
    let expected = vec![Action::Delete { slot: 1024 }, Action::Put { slot: 1025 }];
    same(source.store_tombstone(tag(2), SECRET, 50).actions, expected)?;
    let expected = vec![Action::Delete { slot: 1 }, Action::Put { slot: 1026 }];
    same(source.store_tombstone(tag(3), SECRET, 50).actions, expected)?;
    same(source.store_tombstone(tag(3), SECRET, 90).actions, vec![])?;
    same(source.held_counts(), (0, 1024))
}

/// What the source does; request Four has it otherwise, and a list leaves the comparison here.
fn turned_rows_pass_the_sources_limit() -> Outcome {
    let mut source = with_tombstones((0..1024).map(|_| 50));
    source.put_held(0, &carried(VERIFIED, tag(1), 77, 4));
    same(
        source.tomb(VERIFIED, tag(1), SECRET).actions,
        vec![Action::Put { slot: 0 }],
    )?;
    same(source.held_counts(), (0, 1025))?;
    let expected = vec![Action::Delete { slot: 1 }, Action::Put { slot: 1025 }];
    same(source.store_tombstone(tag(2), SECRET, 50).actions, expected)?;
    same(source.held_counts(), (0, 1025))
}

fn carried_and_tombstoned() -> Outcome {
    let mut source = source();
    source.put_held(0, &carried(VERIFIED, tag(1), 77, 4));
    source.set_next_slot(1);
    same(
        source.store_tombstone(tag(1), WRONG_SECRET, 9).actions,
        vec![Action::Put { slot: 1 }],
    )?;
    same(
        source.tomb(VERIFIED, tag(1), SECRET).actions,
        vec![Action::Put { slot: 0 }],
    )?;
    same(source.held_counts(), (0, 2))
}

fn opened() -> Outcome {
    let mut source = source();
    let raw = source.opened(VERIFIED, tag(1), SECRET, 5000);
    same(
        (raw.replies, raw.actions),
        (vec![Reply::Tomb(tag(1), SECRET)], vec![Action::Put { slot: 0 }]),
    )?;
    same(source.state().held[0].held.clone(), tombstone(tag(1), 1450))?;
    let raw = source.opened(VERIFIED, tag(1), WRONG_SECRET, 5000);
    same(
        (raw.replies, raw.actions),
        (vec![Reply::Tomb(tag(1), WRONG_SECRET)], vec![]),
    )?;
    source.opened(VERIFIED, tag(2), SECRET, 3);
    same(source.state().held[1].held.clone(), tombstone(tag(2), 3))
}

fn failed() -> Outcome {
    for authentic in [false, true] {
        let mut source = source();
        let raw = source.failed(VERIFIED, tag(1), authentic);
        holds(
            raw.malformed && raw.replies.is_empty() && raw.actions.is_empty(),
            "malformed alone",
        )?;
        same(source.state().bad.into_iter().collect(), vec![(VERIFIED, tag(1))])?;
        source.failed(VERIFIED, tag(1), authentic);
        same(source.bad_count(), 1)?;
    }
    Ok(())
}

fn renewed_once() -> Outcome {
    let mut source = source();
    source.setting(true, 4, 60);
    own(&mut source, UNVERIFIED, 3, 0);
    let put = Action::OwnPut {
        contact: UNVERIFIED,
        message: 3,
    };
    source.clock(69 * 60 + 59);
    same(source.maintain().actions, vec![])?;
    source.clock(70 * 60);
    source.setting(true, 9, 100);
    same(source.maintain().actions, vec![put])?;
    let row = source.state().own[0].clone();
    same((row.copies, row.expiry, row.renewed), (9, 170, true))?;
    source.clock(170 * 60);
    same(source.maintain().actions, vec![put])?;
    holds(source.state().own.is_empty(), "dropped the second time")
}

fn own_rows_then_held_by_slot() -> Outcome {
    let mut source = source();
    own(&mut source, VERIFIED, 3, 0);
    source.put_held(5, &carried(VERIFIED, tag(1), 10, 4));
    source.put_held(2, &tombstone(tag(2), 10));
    source.put_held(9, &tombstone(tag(3), 3));
    source.put_held(7, &carried(VERIFIED, tag(4), 11, 4));
    source.clock(1450 * 60);
    source.put_held(7, &carried(VERIFIED, tag(4), 1451, 4));
    let own_put = Action::OwnPut {
        contact: VERIFIED,
        message: 3,
    };
    let deletes = [2, 5, 9].map(|slot| Action::Delete { slot });
    same(source.maintain().actions, [vec![own_put], deletes.to_vec()].concat())?;
    same(source.state().held.len(), 1)
}

pub const CHECKS: &[Check] = &[
    (
        "a carried row that turns retains its slot and expiry",
        turned_keeps_slot_and_expiry,
    ),
    (
        "a wrong secret is malformed, even if an own row would match",
        wrong_secrets,
    ),
    ("an unknown tag changes nothing", unknown_tags),
    ("a tomb ends an own row and stores its tombstone", ended_own_row),
    (
        "at 1,024 the least expiry goes, lowest slot among equals",
        limit_of_1024,
    ),
    (
        "the source: a carried row that turns passes the limit of 1,024",
        turned_rows_pass_the_sources_limit,
    ),
    (
        "a tag carried and tombstoned together, and two tombstones of one tag",
        carried_and_tombstoned,
    ),
    ("opened: a tomb, and a tombstone of the lesser expiry", opened),
    ("failed: malformed, and a bad tag", failed),
    ("own rows are renewed once, then dropped", renewed_once),
    (
        "own rows first, then held rows up to this minute, by slot",
        own_rows_then_held_by_slot,
    ),
];

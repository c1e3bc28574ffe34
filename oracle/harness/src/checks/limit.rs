//! Request Four: carried rows that turn around 1,024 tombstones. The source's own answer is in differences.rs.

use super::bench::*;
use super::{Check, Outcome, holds, same};
use crate::TOMBSTONE_LIMIT;
use crate::compare::judge::{By, Judge};
use lent::Model;
use post::{
    Action, Answer, Areas, Bytes, Call, Contact, FileRecord, Held, HeldRow, Post, Sizes, State, Tag, Verification,
    encode_file,
};
use reference::raw;
use rules::Rules;

/// The tag of the tombstone of a slot.
fn slot_tag(slot: u64) -> Tag {
    let mut tag = tag(0xd0);
    tag[..8].copy_from_slice(&slot.to_be_bytes());
    tag
}

/// Tombstones of these expiries in slots 1, 2, ..
pub fn tombstones(expiries: impl IntoIterator<Item = u32>) -> Vec<(u64, Held)> {
    let row = |(slot, expiry)| (slot, tombstone(slot_tag(slot), expiry));
    (1..).zip(expiries).map(row).collect()
}

/// So many tombstones that expire at minute 50.
fn many(count: usize) -> Vec<(u64, Held)> {
    tombstones(vec![50; count])
}

fn sizes(tombstone_rows: usize) -> Sizes {
    Sizes {
        carried_cells: 4,
        tombstone_rows,
        ..SIZES
    }
}

fn file(rows: &[(u64, Held)], next: u64) -> Bytes {
    let row = |(slot, held): &(u64, Held)| {
        let mark = if held.is_carried() { b'C' } else { b'T' };
        FileRecord::Row(mark, *slot, raw::blob(held))
    };
    let rows: Vec<FileRecord> = rows.iter().map(row).collect();
    encode_file(&[&[FileRecord::NextSlot(next)][..], &rows].concat())
}

/// A post with R rows that has loaded these, with this next slot.
pub fn loaded(tombstone_rows: usize, rows: &[(u64, Held)], next: u64) -> Bench {
    let mut bench = Bench::new(sizes(tombstone_rows));
    let file = file(rows, next);
    assert_eq!(bench.call(Call::Load { file }), Answer::nothing());
    bench
}

/// Carried rows of these tags and expiries in slots 5,000, 5,001, .. behind others.
fn and_carried(mut rows: Vec<(u64, Held)>, carried_rows: &[(Tag, u32)]) -> Vec<(u64, Held)> {
    for (slot, (tag, expiry)) in (5_000..).zip(carried_rows) {
        rows.push((slot, carried(VERIFIED, *tag, *expiry, 4)));
    }
    rows
}

fn with_carried(tombstone_rows: usize, rows: Vec<(u64, Held)>, carried_rows: &[(Tag, u32)]) -> Bench {
    loaded(tombstone_rows, &and_carried(rows, carried_rows), 9_000)
}

pub fn acts(actions: &[Action]) -> Answer {
    Answer::Done {
        malformed: false,
        replies: Vec::new(),
        actions: actions.to_vec(),
        searched: 0,
    }
}

/// A deletion, then the put.
pub fn displaces(gone: u64, slot: u64) -> Answer {
    acts(&[Action::Delete { slot: gone }, Action::Put { slot }])
}

fn turn(bench: &mut Bench, tag: Tag) -> Answer {
    let call = bench.tomb_call(tag, SECRET);
    bench.call(call)
}

fn held(bench: &Bench, slot: u64) -> Option<Held> {
    let row = bench.state().held.into_iter().find(|row| row.slot == slot);
    row.map(|row| row.held)
}

fn counts(bench: &Bench) -> (usize, usize) {
    let state = bench.state();
    (state.carried().count(), state.tombstones().count())
}

fn one_goes_first() -> Outcome {
    let mut bench = with_carried(TOMBSTONE_LIMIT, many(TOMBSTONE_LIMIT), &[(tag(1), 77)]);
    same(turn(&mut bench, tag(1)), displaces(1, 5_000))?;
    same(held(&bench, 5_000), Some(tombstone(tag(1), 77)))?;
    same((held(&bench, 1), counts(&bench)), (None, (0, TOMBSTONE_LIMIT)))
}

fn none_below() -> Outcome {
    let mut bench = with_carried(
        TOMBSTONE_LIMIT + 5,
        many(TOMBSTONE_LIMIT - 1),
        &[(tag(1), 77), (tag(2), 77)],
    );
    same(turn(&mut bench, tag(1)), acts(&[Action::Put { slot: 5_000 }]))?;
    same(counts(&bench), (1, TOMBSTONE_LIMIT))?;
    same(turn(&mut bench, tag(2)), displaces(1, 5_001))?;
    same(counts(&bench), (0, TOMBSTONE_LIMIT))
}

/// The least in the middle; two equal ones, of which the lower slot goes; the last two.
fn least_and_lowest() -> Outcome {
    for (least, goes) in [(&[700][..], 700), (&[900, 300], 300), (&[1023, 1024], 1023)] {
        let expiry = |slot: u64| if least.contains(&slot) { 20 } else { 21 };
        let mut bench = with_carried(TOMBSTONE_LIMIT, tombstones((1..=1024).map(expiry)), &[(tag(1), 77)]);
        same(turn(&mut bench, tag(1)), displaces(goes, 5_000))?;
    }
    let mut bench = with_carried(
        TOMBSTONE_LIMIT,
        tombstones(vec![u32::MAX; TOMBSTONE_LIMIT]),
        &[(tag(1), 77)],
    );
    same(turn(&mut bench, tag(1)), displaces(1, 5_000))
}

/// It stays though its expiry is the least; where the next row turns it is one of those stored before, and goes.
fn no_candidate_itself() -> Outcome {
    let rows = [(tag(1), 11), (tag(2), 12), (tag(3), 99)];
    let mut bench = with_carried(TOMBSTONE_LIMIT, many(TOMBSTONE_LIMIT), &rows);
    same(turn(&mut bench, tag(1)), displaces(1, 5_000))?;
    same(turn(&mut bench, tag(2)), displaces(5_000, 5_001))?;
    same(turn(&mut bench, tag(3)), displaces(5_001, 5_002))?;
    same(
        (held(&bench, 2), counts(&bench)),
        (Some(tombstone(slot_tag(2), 50)), (0, TOMBSTONE_LIMIT)),
    )
}

/// Equal to the least and in a lower slot than all.
fn no_candidate_among_equals() -> Outcome {
    let mut rows = many(TOMBSTONE_LIMIT);
    rows.insert(0, (0, carried(VERIFIED, tag(1), 50, 4)));
    let mut bench = loaded(TOMBSTONE_LIMIT, &rows, 9_000);
    same(turn(&mut bench, tag(1)), displaces(1, 0))?;
    same(held(&bench, 0), Some(tombstone(tag(1), 50)))
}

/// Room is made too; the one that goes may be that of its tag, and else two of one tag stay.
fn tag_has_a_tombstone() -> Outcome {
    for (of_tag, expiry, goes) in [(7, 20, 7), (7, 50, 1), (7, 60, 1)] {
        let mut rows = many(TOMBSTONE_LIMIT);
        rows[of_tag as usize - 1].1 = tombstone(tag(1), expiry);
        let mut bench = with_carried(TOMBSTONE_LIMIT, rows, &[(tag(1), 77)]);
        same(turn(&mut bench, tag(1)), displaces(goes, 5_000))?;
        let of_its_tag = bench
            .state()
            .tombstones()
            .filter(|row| *row.held.tag() == tag(1))
            .count();
        same(
            (of_its_tag, counts(&bench)),
            (if goes == of_tag { 1 } else { 2 }, (0, TOMBSTONE_LIMIT)),
        )?;
    }
    Ok(())
}

/// Exactly one goes, however many there are.
fn above_the_limit() -> Outcome {
    for (there, rows) in [(1030, 1280), (1025, 1025), (2000, 2000)] {
        let mut bench = with_carried(rows, many(there), &[(tag(1), 77), (tag(2), 77)]);
        same(turn(&mut bench, tag(1)), displaces(1, 5_000))?;
        same(turn(&mut bench, tag(2)), displaces(2, 5_001))?;
        same(counts(&bench), (0, there))?;
    }
    Ok(())
}

/// 5 comes after the deletion: at R below 1,024, and at 1,024 or more never.
fn rows_of_r() -> Outcome {
    let (refused, put) = (Answer::Refused(5), acts(&[Action::Put { slot: 5_000 }]));
    for (rows, there, want) in [
        (1022, 1022, refused.clone()),
        (1023, 1022, put.clone()),
        (1023, 1023, refused),
        (1024, 1023, put),
        (1024, 1024, displaces(1, 5_000)),
        (1025, 1024, displaces(1, 5_000)),
        (1025, 1025, displaces(1, 5_000)),
    ] {
        let mut bench = with_carried(rows, many(there), &[(tag(1), 77)]);
        let before = bench.state();
        let answer = turn(&mut bench, tag(1));
        holds(
            answer != Answer::Refused(5) || bench.state() == before,
            "nothing changes where it is refused",
        )?;
        same((rows, there, answer), (rows, there, want))?;
    }
    Ok(())
}

fn last_slot() -> Outcome {
    let mut rows = many(TOMBSTONE_LIMIT);
    rows.push((5_000, carried(VERIFIED, tag(1), 77, 4)));
    let mut bench = loaded(TOMBSTONE_LIMIT, &rows, u64::MAX);
    same(turn(&mut bench, tag(1)), displaces(1, 5_000))?;
    same(bench.state().next_slot, u64::MAX)
}

/// A wrong secret; an unknown tag, or only a tombstone's; an unknown peer; a short area.
fn nothing_goes() -> Outcome {
    let mut bench = with_carried(TOMBSTONE_LIMIT, many(TOMBSTONE_LIMIT), &[(tag(1), 77)]);
    let before = bench.state();
    let wrong = bench.tomb_call(tag(1), WRONG_SECRET);
    let malformed = matches!(bench.call(wrong), Answer::Done { malformed: true, actions, .. } if actions.is_empty());
    holds(malformed, "a wrong secret is malformed")?;
    for tag in [tag(9), slot_tag(3)] {
        same(turn(&mut bench, tag), acts(&[]))?;
    }
    let (peer, tag, secret) = (STRANGER, tag(1), SECRET);
    let mut areas = bench.areas;
    let stranger = |areas| Call::Tomb {
        areas,
        peer,
        tag,
        secret,
    };
    same(bench.refusal(stranger(areas)), Some(2))?;
    areas.actions -= 1;
    same(bench.refusal(stranger(areas)), Some(1))?;
    holds(bench.state() == before, "nothing changes")
}

/// An own row that a tomb ends, opened and a stored tombstone make room as before.
fn stored_ones_as_before() -> Outcome {
    let mut bench = loaded(TOMBSTONE_LIMIT, &many(TOMBSTONE_LIMIT), 9_000);
    let own = bench.own_call(UNVERIFIED, 3, 48);
    bench.call(own);
    let (areas, own) = (bench.areas, bench.state().own[0].clone());
    let own_put = Action::OwnPut {
        contact: UNVERIFIED,
        message: 3,
    };
    let [gone, put] = [Action::Delete { slot: 1 }, Action::Put { slot: 9_000 }];
    same(turn(&mut bench, own.tag), acts(&[own_put, gone, put]))?;
    let stored = bench.stored_call(4);
    same(bench.call(stored.clone()), displaces(2, 9_001))?;
    same(bench.call(stored), acts(&[]))?;
    let opened = bench.call(Call::Opened {
        areas,
        peer: VERIFIED,
        tag: tag(5),
        secret: SECRET,
        expiry: 99,
    });
    let deletes = matches!(opened, Answer::Done { actions, .. } if actions == [Action::Delete { slot: 3 }, Action::Put { slot: 9_002 }]);
    holds(deletes, "opened deletes one and puts its own")
}

/// The post goes on with the turned row: its blob, its tomb, a duplicate of it, a save and its load, a page, maintenance.
fn what_comes_after() -> Outcome {
    let mut bench = with_carried(TOMBSTONE_LIMIT, many(TOMBSTONE_LIMIT), &[(tag(1), 77)]);
    turn(&mut bench, tag(1));
    let areas = bench.areas;
    let row = tombstone(tag(1), 77);
    let blob = bench.call(Call::RowBlob { areas, slot: 5_000 });
    same(blob, Answer::Blob(Some(raw::blob(&row).into())))?;
    same(bench.call(Call::RowBlob { areas, slot: 1 }), Answer::Blob(None))?;
    let peer = VERIFIED;
    same(
        bench.call(Call::InventoryOfOurs { areas, peer }),
        Answer::Listed(Vec::new()),
    )?;
    let duplicate = bench.deposit_answer(1, 0, post::Custody::Duplicate);
    same(bench.deposit(1), duplicate)?;
    bench.open();
    bench.inventory(&[prefix(1)], &[]);
    let tomb = matches!(bench.inventory(&[], &[]), Answer::Done { replies, .. } if replies == [post::Reply::Tomb(tag(1), SECRET)]);
    holds(tomb, "its tomb is sent")?;
    holds(
        matches!(bench.call(Call::Page { areas, number: 53 }), Answer::Page(_)),
        "a page",
    )?;
    let before = bench.state();
    let file = bench.save();
    same(bench.call(Call::Load { file }), Answer::nothing())?;
    holds(bench.state() == before, "the file has the post as it was")?;
    bench.call(Call::Clock { seconds: 50 * 60 });
    let maintenance = bench.call(Call::Maintenance { areas });
    let deleted: Vec<Action> = (2..=1024).map(|slot| Action::Delete { slot }).collect();
    same(maintenance, acts(&deleted))?;
    same(counts(&bench), (0, 1))
}

/// Who judges: the source up to the call before the row turns, the statements from it on. A tomb that turns none takes no list out.
fn where_a_list_leaves() -> Outcome {
    let sizes = sizes(TOMBSTONE_LIMIT);
    let (areas, peer, number) = (Areas::enough(&sizes), VERIFIED, 0);
    let tomb = |byte, secret| Call::Tomb {
        areas,
        peer,
        tag: tag(byte),
        secret,
    };
    let rows = and_carried(many(TOMBSTONE_LIMIT - 1), &[(tag(1), 77), (tag(2), 77)]);
    let (id, verification) = (VERIFIED, Verification::Verified);
    let mut judge = Judge::new(sizes);
    for (call, by) in [
        (Call::Contact { id, verification }, By::Source),
        (
            Call::Load {
                file: file(&rows, 9_000),
            },
            By::Source,
        ),
        (tomb(1, SECRET), By::Source),
        (tomb(2, WRONG_SECRET), By::Source),
        (Call::Page { areas, number }, By::Statements),
        (tomb(2, SECRET), By::Leaving),
        (Call::Page { areas, number }, By::Left),
        (Call::Clock { seconds: 1 }, By::Left),
    ] {
        let judged = judge.take(&call, |seen| (seen.by, matches!(seen.answer, Answer::Refused(_))))?;
        same(judged, (by, false))?;
    }
    holds(judge.has_left(), "the list has left")?;
    judge.finish()
}

/// A state with these held rows and the verified contact, at minute 10.
fn state(held: Vec<(u64, Held)>) -> State {
    let mut rows: Vec<HeldRow> = held.into_iter().map(|(slot, held)| HeldRow { slot, held }).collect();
    rows.sort_by_key(|row| row.slot);
    State {
        clock: SECONDS,
        contacts: vec![Contact {
            id: VERIFIED,
            verification: Verification::Verified,
        }],
        held: rows,
        next_slot: 9_000,
        ..State::fresh(&SIZES)
    }
}

/// What the second and the third statement answer to a right tomb, and hold then, of which only the rows are compared.
fn both(tombstone_rows: usize, before: &State, tag: Tag) -> Result<(Answer, Vec<HeldRow>), String> {
    let sizes = sizes(tombstone_rows);
    let call = Call::Tomb {
        areas: Areas::enough(&sizes),
        peer: VERIFIED,
        tag,
        secret: SECRET,
    };
    let (mut second, mut third) = (Rules::holding(sizes, before.clone()), Model::holding(sizes, before));
    let answer = second.perform(&call);
    same(third.perform(&call), answer.clone())?;
    let held = second.state().held.clone();
    same(&third.state().held, &held)?;
    Ok((answer, held))
}

/// Where the three tombstones stand whose expiries and tags are tried out.
const TRIED: [u64; 3] = [2, 1_000, 2_048];

/// 1,024 tombstones in even slots; three of them, at the ends and within, expire at 49, 50 or 51, all others at 50. The row that turns expires at
/// 48 to 51 and stands before all, within or behind all; its tag is tombstoned nowhere or in one of the three.
fn one_case(expiries: [u32; 3], own: (u64, u32), tombstoned: Option<u64>) -> Outcome {
    let (slot, expiry) = own;
    let row = |place: u64| {
        let at = 2 * place;
        let tried = TRIED.iter().position(|tried| *tried == at);
        let tag = if tombstoned == Some(at) { tag(1) } else { slot_tag(at) };
        (at, tombstone(tag, tried.map_or(50, |place| expiries[place])))
    };
    let mut rows: Vec<(u64, Held)> = (1..=TOMBSTONE_LIMIT as u64).map(row).collect();
    let keys = rows.iter().map(|(slot, held)| (held.expiry(), *slot));
    let (_, goes) = keys.min().expect("1,024 rows");
    rows.push((slot, carried(VERIFIED, tag(1), expiry, 4)));
    let (answer, held) = both(TOMBSTONE_LIMIT, &state(rows.clone()), tag(1))?;
    same(answer, displaces(goes, slot))?;
    rows.retain(|(other, _)| *other != goes && *other != slot);
    rows.push((slot, tombstone(tag(1), expiry)));
    same(held, state(rows).held)
}

pub fn all_cases() -> Outcome {
    let tried = [49, 50, 51];
    for first in tried {
        for second in tried {
            for third in tried {
                for slot in [1, 999, 5_001] {
                    for expiry in 48..=51 {
                        for tombstoned in [None, Some(TRIED[0]), Some(TRIED[1]), Some(TRIED[2])] {
                            one_case([first, second, third], (slot, expiry), tombstoned)?;
                        }
                    }
                }
            }
        }
    }
    Ok(())
}

/// Every number of tombstones around the limit, with every R that holds them.
pub fn all_rows() -> Outcome {
    for there in 1_020..=1_030 {
        for rows in there..=1_032 {
            let mut held = many(there);
            held.push((5_000, carried(VERIFIED, tag(1), 77, 4)));
            let (answer, held) = both(rows, &state(held), tag(1))?;
            let (want, after) = match there {
                1_024.. => (displaces(1, 5_000), there),
                _ if there == rows => (Answer::Refused(5), there),
                _ => (acts(&[Action::Put { slot: 5_000 }]), there + 1),
            };
            let tombstones = held.iter().filter(|row| !row.held.is_carried()).count();
            same((there, rows, answer, tombstones), (there, rows, want, after))?;
        }
    }
    Ok(())
}

pub const CHECKS: &[Check] = &[
    ("at 1,024 one goes first, and 1,024 stay", one_goes_first),
    ("at 1,023 none goes", none_below),
    ("the least expiry goes, lowest slot among equals", least_and_lowest),
    (
        "the row that turns is no candidate, though it expires first",
        no_candidate_itself,
    ),
    ("nor among equals, in the lowest slot", no_candidate_among_equals),
    ("its tag has a tombstone, which goes or stays", tag_has_a_tombstone),
    ("above 1,024 exactly one goes", above_the_limit),
    ("5 comes after the deletion", rows_of_r),
    ("never 6", last_slot),
    ("nothing goes for a wrong secret, an unknown tag, 1 and 2", nothing_goes),
    (
        "own rows, opened and stored ones make room as before",
        stored_ones_as_before,
    ),
    (
        "blob, tomb, duplicate, save, load, page and maintenance after it",
        what_comes_after,
    ),
    (
        "where a list leaves the comparison with the source",
        where_a_list_leaves,
    ),
];

//! The limit of 1,024 tombstones: stored ones and carried rows that turn obey it alike.

use super::*;
use std::collections::BTreeMap;

const LIMIT: usize = 1024;

fn numbered(n: u32) -> Tag {
    let mut tag = tag(0);
    tag.0[..4].copy_from_slice(&n.to_be_bytes());
    tag
}

/// A post with so many rows for tombstones.
fn with_rows(tombstone_rows: usize) -> Post {
    sized(Sizes {
        tombstone_rows,
        ..SIZES
    })
}

/// It carries tag 1 in slot 0, and so many tombstones were stored from slot 1 on. They expire at minute 50, those of
/// slots 601 and 701 at minute 40.
fn with_tombstones(rows: usize, count: u32) -> Post {
    let mut post = with_rows(rows);
    carry(&mut post, VERIFIED, envelope(1, 4));
    for n in 0..count {
        let expiry = if n == 600 || n == 700 { 40 } else { 50 };
        let actions = post.stored_tombstone(numbered(n), SECRET, expiry).unwrap();
        assert_eq!(listed(actions), [Action::Put(Slot(u64::from(n) + 1))]);
    }
    post
}

fn full() -> Post {
    with_tombstones(LIMIT, 1024)
}

/// What the tomb of a carried row does at the limit: one goes, then the row is put.
fn one_goes(goes: Slot, turns: Slot) -> Option<Vec<Action>> {
    Some(vec![Action::Delete(goes), Action::Put(turns)])
}

fn turn(post: &mut Post) -> Result<(), Refusal> {
    post.tomb(VERIFIED, tag(1), SECRET).map(drop)
}

#[test]
fn a_stored_tombstone_deletes_the_one_of_least_expiry() {
    let mut post = full();
    let again = post.stored_tombstone(numbered(5), SECRET, 99).unwrap();
    assert_eq!(listed(again), [], "the tag has one");
    let actions = post.stored_tombstone(numbered(1024), SECRET, 50).unwrap();
    assert_eq!(
        listed(actions),
        [Action::Delete(Slot(601)), Action::Put(Slot(1025))]
    );
    assert_eq!(post.counts().tombstones, LIMIT);
}

#[test]
fn a_turned_row_deletes_the_one_of_least_expiry() {
    let mut post = full();
    let actions = tomb(&mut post, tag(1), SECRET);
    assert_eq!(actions, one_goes(Slot(601), Slot(0)));
    let counts = post.counts();
    assert_eq!((counts.carried, counts.tombstones), (0, LIMIT));
    assert_eq!(post.tombstone_of(numbered(600)), None);
    assert_eq!(tombstone(&post, Slot(0)), (tag(1), SECRET, 100));
    assert_eq!(tombstone(&post, Slot(701)), (numbered(700), SECRET, 40));
    assert_eq!(post.next_slot(), Slot(1025), "a turned row keeps its slot");
}

#[test]
fn a_turned_row_is_not_the_one_that_goes() {
    let mut post = full();
    let mut soon = envelope(2, 4);
    soon.header.expiry_min = 20;
    let slot = carry(&mut post, VERIFIED, soon);
    assert_eq!(tomb(&mut post, tag(2), SECRET), one_goes(Slot(601), slot));
    assert_eq!(tombstone(&post, slot), (tag(2), SECRET, 20));
    let next = tomb(&mut post, tag(1), SECRET);
    assert_eq!(next, one_goes(slot, Slot(0)), "it goes for the next");
    assert_eq!(post.counts().tombstones, LIMIT);
}

#[test]
fn a_turned_row_whose_tag_has_a_tombstone_deletes_one_too() {
    let mut post = with_tombstones(LIMIT, 1023);
    let _ = post.stored_tombstone(tag(1), SECRET, 30).unwrap();
    let actions = tomb(&mut post, tag(1), SECRET);
    assert_eq!(actions, one_goes(Slot(1024), Slot(0)));
    let of_tag = post.tombstones().filter(|row| row.tag == tag(1)).count();
    assert_eq!((of_tag, post.counts().tombstones), (1, LIMIT));
}

#[test]
fn a_turned_row_needs_no_slot() {
    let mut areas = full().into_areas();
    areas.device[52..60].fill(0xff);
    let mut post = Post::over(areas).unwrap();
    let stored = |post: &mut Post| post.stored_tombstone(tag(9), SECRET, 90).map(drop);
    assert_eq!(refused(&mut post, stored), 6);
    let actions = tomb(&mut post, tag(1), SECRET);
    assert_eq!(actions, one_goes(Slot(601), Slot(0)));
}

#[test]
fn nothing_goes_for_a_wrong_secret_or_an_unknown_tag() {
    let mut post = full();
    let before = post.areas().clone();
    assert_eq!(tomb(&mut post, tag(1), Secret([0x34; 16])), None);
    assert_eq!(tomb(&mut post, tag(2), SECRET), Some(vec![]));
    assert!(*post.areas() == before);
}

#[test]
fn below_the_limit_nothing_goes() {
    let mut post = with_tombstones(LIMIT, 1023);
    let actions = tomb(&mut post, tag(1), SECRET);
    assert_eq!(actions, Some(vec![Action::Put(Slot(0))]));
    assert_eq!(post.counts().tombstones, LIMIT);
    assert_eq!(refused(&mut with_tombstones(1023, 1023), turn), 5);
}

/// In 1,024 rows no turned row is refused, and more rows stay unused.
#[test]
fn rows_turn_without_end() {
    for rows in [LIMIT, 1100] {
        let mut post = with_tombstones(rows, 1024);
        for n in 2000..2200 {
            let mut next = envelope(0, 4);
            next.header.tag = numbered(n);
            let slot = carry(&mut post, VERIFIED, next);
            let actions = tomb(&mut post, numbered(n), SECRET).unwrap();
            assert!(matches!(actions[..], [Action::Delete(_), Action::Put(put)] if put == slot));
            assert_eq!(post.counts().tombstones, LIMIT);
        }
    }
}

/// A file with 1,100 tombstones, of which the last two expire at minute 30 and the others at minute 50.
fn file_of_1100() -> SavedFile {
    let mut file = SavedFile::new();
    for n in 0..1100 {
        let expiry: u32 = if n < 1098 { 50 } else { 30 };
        let blob = [&[1], &numbered(n).0[..], &SECRET.0, &expiry.to_be_bytes()].concat();
        file.push(Slot(n.into()), &blob).unwrap();
    }
    file
}

#[test]
fn of_more_that_were_loaded_one_goes_for_each_that_turns() {
    let file = file_of_1100();
    let mut post = with_rows(1100);
    post.load(file.as_bytes()).unwrap();
    let slot = carry(&mut post, VERIFIED, envelope(1, 4));
    assert_eq!(tomb(&mut post, tag(1), SECRET), one_goes(Slot(1098), slot));
    assert_eq!(post.counts().tombstones, 1100);
    let load = |post: &mut Post| post.load(file.as_bytes());
    assert_eq!(refused(&mut with_rows(LIMIT), load), 5);
}

/// What a host has stored of a post: the blob of every held row.
fn stored(post: &Post) -> BTreeMap<Slot, Vec<u8>> {
    let carried = post.carried().map(|row| row.slot);
    let slots = carried.chain(post.tombstones().map(|row| row.slot));
    let mut blob = [0; BLOB];
    slots
        .map(|slot| (slot, post.row_blob(slot, &mut blob).unwrap().to_vec()))
        .collect()
}

/// A start with 1,024 tombstone rows from what is stored.
fn started(stored: &BTreeMap<Slot, Vec<u8>>) -> Result<Post, Refusal> {
    let mut file = SavedFile::new();
    for (slot, blob) in stored {
        file.push(*slot, blob).unwrap();
    }
    let mut post = with_rows(LIMIT);
    post.load(file.as_bytes())?;
    Ok(post)
}

#[test]
fn a_power_cut_between_delete_and_put_costs_one_tombstone() {
    let mut post = full();
    let before = stored(&post);
    let actions = tomb(&mut post, tag(1), SECRET).unwrap();
    let [Action::Delete(goes), Action::Put(turns)] = actions[..] else {
        panic!("{actions:?}");
    };
    let after = stored(&post);
    let mut cut = before.clone();
    cut.remove(&goes);
    let mut again = started(&cut).unwrap();
    let counts = again.counts();
    assert_eq!((counts.carried, counts.tombstones), (1, LIMIT - 1));
    let actions = tomb(&mut again, tag(1), SECRET);
    assert_eq!(actions, Some(vec![Action::Put(turns)]));
    assert!(stored(&again) == after);
    let mut other_way_round = before;
    other_way_round.insert(turns, after[&turns].clone());
    assert_eq!(
        started(&other_way_round).err(),
        Some(Refusal::NoTombstoneRow)
    );
}

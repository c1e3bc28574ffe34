//! Tombs, reports and stored tombstones.

use super::*;

#[test]
fn a_tomb_with_the_right_secret_turns_the_carried_row() {
    let mut post = post();
    carry(&mut post, VERIFIED, envelope(9, 4));
    let slot = carry(&mut post, VERIFIED, envelope(1, 4));
    assert_eq!(
        tomb(&mut post, tag(1), SECRET),
        Some(vec![Action::Put(slot)])
    );
    assert_eq!(tombstone(&post, slot), (tag(1), SECRET, 100));
    assert_eq!((post.counts().carried, post.counts().tombstones), (1, 1));
    assert_eq!(post.next_slot(), Slot(2));
}

#[test]
fn a_wrong_secret_is_malformed_and_an_unknown_tag_does_nothing() {
    let mut post = post();
    carry(&mut post, VERIFIED, envelope(1, 4));
    let before = post.areas().clone();
    assert_eq!(tomb(&mut post, tag(1), Secret([0x34; 16])), None);
    assert_eq!(tomb(&mut post, tag(2), SECRET), Some(vec![]));
    assert!(*post.areas() == before);
    assert_eq!(
        refused(&mut post, |post| post
            .tomb(STRANGER, tag(1), SECRET)
            .map(drop)),
        2
    );
}

#[test]
fn a_tomb_ends_an_own_row_and_stores_its_tombstone() {
    let mut post = post();
    let own = post.own_envelope(message(VERIFIED, 1, 7)).unwrap().unwrap();
    assert_eq!(tomb(&mut post, own.tag, Secret([0; 16])), None);
    let ended = Action::OwnPut {
        contact: VERIFIED,
        message: 1,
    };
    assert_eq!(
        tomb(&mut post, own.tag, SECRET),
        Some(vec![ended, Action::Put(Slot(0))])
    );
    assert_eq!(post.own_row(VERIFIED, 1), None);
    assert_eq!(tombstone(&post, Slot(0)), (own.tag, SECRET, 1450));
}

#[test]
fn a_carried_row_is_looked_for_before_an_own_one() {
    let mut post = post();
    let own = post.own_envelope(message(VERIFIED, 1, 7)).unwrap().unwrap();
    let mut alone = sized(SIZES);
    let mut twin = envelope(0, 4);
    twin.header.tag = own.tag;
    twin.header.commitment = Commitment([0; 16]);
    carry(&mut alone, VERIFIED, twin);
    alone.own_envelope(message(VERIFIED, 1, 7)).unwrap();
    assert_eq!(tomb(&mut alone, own.tag, SECRET), None);
    assert!(tomb(&mut post, own.tag, SECRET).is_some());
}

#[test]
fn no_tombstone_row_meets_5() {
    let mut post = sized(Sizes {
        tombstone_rows: 1,
        ..SIZES
    });
    carry(&mut post, VERIFIED, envelope(1, 4));
    let _ = post.stored_tombstone(tag(2), SECRET, 90).unwrap();
    let turning = |post: &mut Post| post.tomb(VERIFIED, tag(1), SECRET).map(drop);
    assert_eq!(refused(&mut post, turning), 5);
    let stored = |post: &mut Post| post.stored_tombstone(tag(3), SECRET, 90).map(drop);
    assert_eq!(refused(&mut post, stored), 5);
    let reported = |post: &mut Post| post.opened(VERIFIED, tag(3), SECRET, 90).map(drop);
    assert_eq!(refused(&mut post, reported), 5);
}

#[test]
fn opened_stores_a_tombstone_and_answers_its_tomb() {
    let mut post = post();
    let tomb = Reply::Tomb {
        tag: tag(1),
        secret: SECRET,
    };
    for actions in [vec![Action::Put(Slot(0))], vec![]] {
        let opened = post.opened(VERIFIED, tag(1), SECRET, 5000).unwrap();
        assert_eq!(opened.replies.collect::<Vec<_>>(), [tomb]);
        assert_eq!(listed(opened.actions), actions);
    }
    assert_eq!(tombstone(&post, Slot(0)), (tag(1), SECRET, 1450));
    let _ = post.opened(VERIFIED, tag(2), SECRET, 20).unwrap();
    assert_eq!(tombstone(&post, Slot(1)), (tag(2), SECRET, 20));
    let stranger = |post: &mut Post| post.opened(STRANGER, tag(3), SECRET, 20).map(drop);
    assert_eq!(refused(&mut post, stranger), 2);
}

#[test]
fn failed_makes_a_tag_bad_until_no_row_is_left() {
    let mut post = post();
    for (peer, byte) in [(VERIFIED, 1), (VERIFIED, 1), (UNVERIFIED, 1)] {
        post.failed(peer, tag(byte)).unwrap();
    }
    assert_eq!(post.counts().bad_tags, 2);
    assert_eq!(refused(&mut post, |post| post.failed(VERIFIED, tag(2))), 9);
    post.failed(UNVERIFIED, tag(1)).unwrap();
    assert_eq!(refused(&mut post, |post| post.failed(STRANGER, tag(2))), 2);
}

/// How many tombstones a carried tag has after a call.
fn tombstones_after(call: impl FnOnce(&mut Post)) -> usize {
    let mut post = post();
    carry(&mut post, VERIFIED, envelope(1, 4));
    call(&mut post);
    assert_eq!(post.carried_of(tag(1)), None);
    post.tombstones().filter(|row| row.tag == tag(1)).count()
}

#[test]
fn a_tomb_before_opened_leaves_one_tombstone() {
    let tomb_first = tombstones_after(|post| {
        assert_eq!(tomb(post, tag(1), SECRET).unwrap().len(), 1);
        let opened = post.opened(VERIFIED, tag(1), SECRET, 100).unwrap();
        assert_eq!((opened.replies.len(), opened.actions.len()), (1, 0));
    });
    let opened_first = tombstones_after(|post| {
        let opened = post.opened(VERIFIED, tag(1), SECRET, 100).unwrap();
        assert_eq!((opened.replies.len(), opened.actions.len()), (1, 1));
        assert_eq!(tomb(post, tag(1), SECRET).unwrap().len(), 1);
    });
    assert_eq!((tomb_first, opened_first), (1, 2));
}

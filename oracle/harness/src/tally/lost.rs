//! Corners of request Two: window tags that are tombstoned.

use super::Corner;
use crate::TOMBSTONE_LIMIT;
use crate::compare::judge::Seen;
use crate::lost::Ending;
use post::{Answer, Reply, Tag};

/// An empty inventory that was answered.
fn ended(seen: &Seen, holds: impl Fn(&Ending, &[Reply]) -> bool) -> bool {
    let Answer::Done {
        malformed: false,
        replies,
        ..
    } = seen.answer
    else {
        return false;
    };
    Ending::of(seen.before, seen.call).is_some_and(|ending| holds(&ending, replies))
}

/// A fetch of the tag was lost.
fn lost(seen: &Seen, holds: impl Fn(&Tag, &[Reply]) -> bool) -> bool {
    ended(seen, |ending, replies| {
        ending.lost().into_iter().any(|tag| holds(tag, replies))
    })
}

/// The tombs of a tag's prefix that were sent.
fn tombs<'a>(replies: &'a [Reply], tag: &Tag) -> impl Iterator<Item = &'a Tag> {
    let start: [u8; 8] = post::array(tag, 0);
    replies.iter().filter_map(move |reply| match reply {
        Reply::Tomb(other, _) if other.starts_with(&start) => Some(other),
        _ => None,
    })
}

fn fetched(replies: &[Reply], tag: &Tag) -> bool {
    replies.contains(&Reply::Fetch(*tag))
}

/// Every tombstone of the tag is past.
fn is_past(seen: &Seen, tag: &Tag) -> bool {
    let mut tombstones = seen.before.tombstones().filter(|row| row.held.tag() == tag);
    tombstones.all(|row| u64::from(row.held.expiry()) <= seen.before.clock / 60)
}

/// A fetch that stays though the prefix has a tombstone of another tag.
fn fetched_beside_a_tombstone(replies: &[Reply]) -> bool {
    replies.iter().any(|reply| match reply {
        Reply::Fetch(tag) => tombs(replies, tag).next().is_some(),
        _ => false,
    })
}

pub const CORNERS: &[Corner] = &[
    ("a fetch is lost: the window tag is tombstoned", |seen| {
        lost(seen, |_, _| true)
    }),
    ("a tomb and no fetch for one tag of the window", |seen| {
        lost(seen, |tag, replies| {
            !fetched(replies, tag) && tombs(replies, tag).any(|other| other == tag)
        })
    }),
    ("a repeated prefix loses two fetches", |seen| {
        ended(seen, |ending, _| {
            let lost = ending.lost();
            (1..lost.len()).any(|place| lost[..place].contains(&lost[place]))
        })
    }),
    ("one fetch is lost and another stays", |seen| {
        lost(seen, |_, replies| {
            replies.iter().any(|reply| matches!(reply, Reply::Fetch(_)))
        })
    }),
    ("a first window row both bad for the peer and tombstoned", |seen| {
        ended(seen, |ending, _| {
            let firsts = ending
                .listed
                .iter()
                .filter_map(|start| ending.met(start).first().copied());
            firsts
                .into_iter()
                .any(|tag| ending.is_bad(tag) && ending.is_tombstoned(tag))
        })
    }),
    ("a tombstoned first window row, and no second look", |seen| {
        ended(seen, |ending, _| {
            let free = |tag: &&Tag| !ending.is_bad(tag) && !ending.is_tombstoned(tag);
            let mut losing = ending.listed.iter().filter(|start| ending.loses(start).is_some());
            losing.any(|start| ending.met(start).iter().skip(1).any(free))
        })
    }),
    ("a fetch, though another tag of the prefix has a tombstone", |seen| {
        ended(seen, |_, replies| fetched_beside_a_tombstone(replies))
    }),
    (
        "a fetch is lost, and the tomb is of another tag of lower slot",
        |seen| lost(seen, |tag, replies| tombs(replies, tag).any(|other| other != tag)),
    ),
    ("a fetch is lost to a tombstone that is past", |seen| {
        lost(seen, |tag, _| is_past(seen, tag))
    }),
    ("a fetch is lost though the tag is carried too", |seen| {
        lost(seen, |tag, _| {
            seen.before.carried().any(|(_, _, envelope)| envelope.tag == *tag)
        })
    }),
    ("a fetch is lost where 1,024 tombstones are", |seen| {
        lost(seen, |_, _| seen.before.tombstones().count() >= TOMBSTONE_LIMIT)
    }),
    ("an envelope is ours though its tag is tombstoned", |seen| {
        let tombstoned = |tag: &Tag| seen.before.tombstones().any(|row| row.held.tag() == tag);
        match (seen.call, seen.answer) {
            (post::Call::Envelope { envelope, .. }, Answer::Ours { .. }) => tombstoned(&envelope.tag),
            _ => false,
        }
    }),
];

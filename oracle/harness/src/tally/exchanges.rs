//! Corners of inventories, fetches and custody codes.

use super::Corner;
use crate::compare::judge::Seen;
use post::{Action, Answer, Call, Custody, Envelope, Exchange, Held, Prefix, Reply, State, Tag, WindowRow, array};

fn prefix(tag: &Tag) -> Prefix {
    array(tag, 0)
}

fn is_past(state: &State, expiry: u32) -> bool {
    u64::from(expiry) <= state.clock / 60
}

/// An inventory that was not refused: the exchange before, how many prefixes, malformed, the replies.
fn inventory<'a>(seen: &'a Seen) -> Option<(&'a Exchange, usize, bool, &'a [Reply])> {
    match (seen.call, seen.answer) {
        (Call::Inventory { exchange, prefixes, .. }, Answer::Done { malformed, replies, .. }) => Some((
            &seen.before.exchanges[*exchange],
            prefixes.len() / 8,
            *malformed,
            replies,
        )),
        _ => None,
    }
}

fn took(seen: &Seen, holds: impl Fn(&Exchange, usize, bool) -> bool) -> bool {
    inventory(seen).is_some_and(|(open, count, malformed, _)| holds(open, count, malformed))
}

/// An empty inventory that was answered: the peer, the listed prefixes, the window, the replies.
fn answered(seen: &Seen, holds: impl Fn(u64, &[Prefix], &[WindowRow], &[Reply]) -> bool) -> bool {
    let Some((open, 0, false, replies)) = inventory(seen) else {
        return false;
    };
    let Call::Inventory { peer, window, .. } = seen.call else {
        return false;
    };
    let rows: Vec<WindowRow> = window.chunks_exact(WindowRow::WIDTH).map(WindowRow::read).collect();
    holds(*peer, &open.listed, &rows, replies)
}

fn envelope_of(reply: &Reply) -> Option<&Envelope> {
    match reply {
        Reply::Envelope(envelope) => Some(envelope),
        _ => None,
    }
}

fn offered(replies: &[Reply]) -> Vec<&Envelope> {
    replies.iter().filter_map(envelope_of).collect()
}

fn fetched(replies: &[Reply], tag: &Tag) -> usize {
    replies.iter().filter(|reply| **reply == Reply::Fetch(*tag)).count()
}

/// A prefix whose first window row is bad for the peer, and that has a second row which is not.
fn stopped_at_a_bad_row(state: &State, peer: u64, listed: &[Prefix], rows: &[WindowRow]) -> bool {
    let bad = |row: &WindowRow| state.bad.contains(&(peer, row.tag));
    listed.iter().any(|start| {
        let mut met = rows.iter().filter(|row| prefix(&row.tag) == *start);
        met.next().is_some_and(bad) && met.any(|row| !bad(row))
    })
}

fn carried_left_out(seen: &Seen, why: impl Fn(&Envelope, &[Prefix]) -> bool) -> bool {
    answered(seen, |_, listed, _, replies| {
        let sent = offered(replies);
        let out = |envelope: &Envelope| !sent.iter().any(|other| other.tag == envelope.tag);
        seen.before
            .carried()
            .any(|(_, _, envelope)| out(envelope) && why(envelope, listed))
    })
}

fn tombstoned(state: &State, tag: &Tag) -> bool {
    state.tombstones().any(|row| row.held.tag() == tag)
}

/// A custody code that was not refused: the code, the copies that stood offered, the actions.
fn coded<'a>(seen: &'a Seen) -> Option<(&'a Tag, Custody, Option<u8>, &'a [Action])> {
    match (seen.call, seen.answer) {
        (
            Call::CustodyCode {
                exchange, tag, code, ..
            },
            Answer::Done { actions, .. },
        ) => {
            let handed = seen.before.exchanges[*exchange].offered.get(tag).copied();
            Some((tag, *code, handed, actions))
        }
        _ => None,
    }
}

fn accepted(seen: &Seen, holds: impl Fn(&Tag, u8, &[Action]) -> bool) -> bool {
    coded(seen).is_some_and(|(tag, code, handed, actions)| {
        code == Custody::Accepted && handed.is_some_and(|copies| holds(tag, copies, actions))
    })
}

fn copies_of(state: &State, tag: &Tag) -> Option<u8> {
    state
        .carried()
        .find(|(_, _, envelope)| envelope.tag == *tag)
        .map(|(_, _, envelope)| envelope.copies)
}

fn fetch_reply<'a>(seen: &'a Seen) -> Option<&'a Envelope> {
    match (seen.call, seen.answer) {
        (Call::Fetch { .. }, Answer::Done { replies, .. }) => offered(replies).first().copied(),
        _ => None,
    }
}

pub const CORNERS: &[Corner] = &[
    ("512 prefixes listed", |seen| {
        took(seen, |open, count, malformed| {
            !malformed && count > 0 && open.listed.len() + count == 512
        })
    }),
    ("the terminator after 512", |seen| {
        took(seen, |open, count, malformed| {
            !malformed && count == 0 && open.listed.len() == 512
        })
    }),
    ("513 prefixes in all are malformed", |seen| {
        took(seen, |open, count, malformed| {
            malformed && !open.complete && open.listed.len() + count == 513
        })
    }),
    ("513 in all by several lists", |seen| {
        took(seen, |open, count, malformed| {
            malformed && !open.listed.is_empty() && open.listed.len() + count == 513
        })
    }),
    ("an empty inventory after the terminator is malformed", |seen| {
        took(seen, |open, count, malformed| malformed && open.complete && count == 0)
    }),
    ("an inventory with prefixes after the terminator is malformed", |seen| {
        took(seen, |open, count, malformed| malformed && open.complete && count > 0)
    }),
    ("a bad first window row, and no second look", |seen| {
        answered(seen, |peer, listed, rows, _| {
            stopped_at_a_bad_row(seen.before, peer, listed, rows)
        })
    }),
    ("a tag that is bad for another peer is fetched", |seen| {
        answered(seen, |peer, _, _, replies| {
            seen.before
                .bad
                .iter()
                .any(|(other, tag)| *other != peer && fetched(replies, tag) > 0)
        })
    }),
    ("a repeated prefix is fetched again", |seen| {
        answered(seen, |_, _, rows, replies| {
            rows.iter().any(|row| fetched(replies, &row.tag) > 1)
        })
    }),
    ("a prefix meets two window rows", |seen| {
        answered(seen, |_, listed, rows, _| {
            listed
                .iter()
                .any(|start| rows.iter().filter(|row| prefix(&row.tag) == *start).count() > 1)
        })
    }),
    ("a prefix meets two tombstones", |seen| {
        answered(seen, |_, listed, _, _| {
            listed.iter().any(|start| {
                seen.before
                    .tombstones()
                    .filter(|row| prefix(row.held.tag()) == *start)
                    .count()
                    > 1
            })
        })
    }),
    ("a row with 1 copy is not offered", |seen| {
        carried_left_out(seen, |envelope, listed| {
            envelope.copies == 1 && !tombstoned(seen.before, &envelope.tag) && !listed.contains(&prefix(&envelope.tag))
        })
    }),
    ("a tombstoned row is not offered", |seen| {
        carried_left_out(seen, |envelope, listed| {
            envelope.copies > 1 && tombstoned(seen.before, &envelope.tag) && !listed.contains(&prefix(&envelope.tag))
        })
    }),
    ("a listed row is not offered", |seen| {
        carried_left_out(seen, |envelope, listed| {
            envelope.copies > 1 && !tombstoned(seen.before, &envelope.tag) && listed.contains(&prefix(&envelope.tag))
        })
    }),
    ("an expired row is offered", |seen| {
        answered(seen, |_, _, _, replies| {
            offered(replies)
                .iter()
                .any(|envelope| is_past(seen.before, envelope.expiry))
        })
    }),
    ("an own row for the peer is not offered to it", |seen| {
        answered(seen, |peer, _, _, _| {
            seen.before.own.iter().any(|row| row.contact == peer && row.copies > 1)
        })
    }),
    ("an own and a carried offer of one tag", |seen| {
        answered(seen, |_, _, _, replies| {
            let sent = offered(replies);
            sent.iter()
                .any(|one| sent.iter().filter(|two| two.tag == one.tag).count() > 1)
        })
    }),
    ("5 copies offer 2", |seen| {
        answered(seen, |_, _, _, replies| {
            offered(replies)
                .iter()
                .any(|envelope| envelope.copies == 2 && copies_of(seen.before, &envelope.tag) == Some(5))
        })
    }),
    ("Accepted takes copies off a carried row", |seen| {
        accepted(seen, |_, _, actions| matches!(actions, [Action::Put { .. }]))
    }),
    ("Accepted takes copies off an own row", |seen| {
        accepted(seen, |_, _, actions| matches!(actions, [Action::OwnPut { .. }]))
    }),
    ("Accepted with a carried and an own row of the tag", |seen| {
        accepted(seen, |tag, _, _| {
            copies_of(seen.before, tag).is_some() && seen.before.own.iter().any(|row| row.tag == *tag)
        })
    }),
    ("Accepted for a row that is gone", |seen| {
        accepted(seen, |_, _, actions| actions.is_empty())
    }),
    ("copies fall to 0", |seen| {
        accepted(seen, |tag, _, _| {
            copies_of(seen.before, tag) > Some(0) && copies_of(seen.after, tag) == Some(0)
        })
    }),
    ("more copies are handed than there are", |seen| {
        accepted(seen, |tag, copies, _| {
            copies_of(seen.before, tag).is_some_and(|there| copies > there)
        })
    }),
    ("another code clears the offer", |seen| {
        coded(seen).is_some_and(|(_, code, handed, _)| code != Custody::Accepted && handed.is_some())
    }),
    ("a code for what was not offered", |seen| {
        coded(seen).is_some_and(|(_, _, handed, _)| handed.is_none())
    }),
    ("an expired row is fetched", |seen| {
        fetch_reply(seen).is_some_and(|envelope| is_past(seen.before, envelope.expiry))
    }),
    ("a tombstoned row is fetched", |seen| {
        fetch_reply(seen).is_some_and(|envelope| tombstoned(seen.before, &envelope.tag))
    }),
    ("a row with 0 copies is fetched", |seen| {
        fetch_reply(seen).is_some_and(|envelope| envelope.copies == 0)
    }),
    ("two tombstones of one tag", |seen| {
        let mut tags: Vec<&Tag> = Vec::new();
        matches!(seen.call, Call::Tomb { .. })
            && seen.after.held.iter().any(|row| match &row.held {
                Held::Tombstone { tag, .. } if tags.contains(&tag) => true,
                Held::Tombstone { tag, .. } => {
                    tags.push(tag);
                    false
                }
                Held::Carried { .. } => false,
            })
    }),
];

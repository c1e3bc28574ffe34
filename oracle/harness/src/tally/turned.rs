//! Corners of request Four: carried rows that turn around 1,024 tombstones, and lists that leave the comparison with the source.

use super::Corner;
use crate::TOMBSTONE_LIMIT;
use crate::compare::judge::{By, Seen};
use post::{Action, Answer, Call, Custody, HeldRow, Kind, Reply, State, Tag};

const LAST_SLOT: u64 = u64::MAX;

/// A tomb that turned a carried row: the row before it, the tombstone that went, and how many tombstones there were.
struct Turn<'a> {
    row: &'a HeldRow,
    gone: Option<&'a HeldRow>,
    there: usize,
}

fn row(state: &State, slot: u64) -> Option<&HeldRow> {
    state.held.iter().find(|row| row.slot == slot)
}

fn tombstones(state: &State) -> usize {
    state.tombstones().count()
}

fn turned(seen: &Seen, holds: impl Fn(&Turn) -> bool) -> bool {
    let Answer::Done { actions, .. } = seen.answer else {
        return false;
    };
    let (gone, put) = match actions[..] {
        _ if seen.call.kind() != Kind::Tomb => return false,
        [Action::Put { slot }] => (None, slot),
        [Action::Delete { slot: gone }, Action::Put { slot }] => (row(seen.before, gone), slot),
        _ => return false,
    };
    let (row, there) = (row(seen.before, put), tombstones(seen.before));
    row.is_some_and(|row| holds(&Turn { row, gone, there }))
}

/// One went for it.
fn displaced(seen: &Seen, holds: impl Fn(&HeldRow, &HeldRow) -> bool) -> bool {
    turned(seen, |turn| turn.gone.is_some_and(|gone| holds(turn.row, gone)))
}

/// So many before and after, and one went.
fn stays_at(seen: &Seen, holds: impl Fn(usize) -> bool) -> bool {
    let there = tombstones(seen.before);
    displaced(seen, |_, _| holds(there) && tombstones(seen.after) == there)
}

/// A tomb that is answered with this alone, where 1,024 tombstones are or more; the source judged it.
fn nothing_goes(seen: &Seen, malformed: bool, holds: impl Fn(&Tag) -> bool) -> bool {
    let nothing = matches!(seen.answer, Answer::Done { malformed: said, actions, .. } if *said == malformed && actions.is_empty());
    let at_the_limit = seen.by == By::Source && tombstones(seen.before) >= TOMBSTONE_LIMIT;
    matches!(seen.call, Call::Tomb { tag, .. } if nothing && at_the_limit && holds(tag)) && seen.before == seen.after
}

fn is_carried(state: &State, tag: &Tag) -> bool {
    state.carried().any(|(_, _, envelope)| envelope.tag == *tag)
}

fn is_tombstoned(state: &State, tag: &Tag) -> bool {
    state.tombstones().any(|row| row.held.tag() == tag)
}

fn is_past(state: &State, row: &HeldRow) -> bool {
    u64::from(row.held.expiry()) <= state.clock / 60
}

/// A call of a list that has left, with 1,024 tombstones or more there.
fn left(seen: &Seen, holds: impl Fn(&Call, &Answer) -> bool) -> bool {
    seen.by == By::Left && tombstones(seen.before) >= TOMBSTONE_LIMIT && holds(seen.call, seen.answer)
}

fn deletes(answer: &Answer) -> bool {
    let is_delete = |action: &Action| matches!(action, Action::Delete { .. });
    matches!(answer, Answer::Done { actions, .. } if actions.iter().any(is_delete))
}

fn replies(answer: &Answer, holds: impl Fn(&Reply) -> bool) -> bool {
    matches!(answer, Answer::Done { replies, .. } if replies.iter().any(holds))
}

/// Where lists leave, and what a row that turns meets.
pub const TURNS: &[Corner] = &[
    ("a list leaves the comparison with the source", |seen| {
        seen.by == By::Leaving
    }),
    ("the call before a list leaves was compared with the source", |seen| {
        seen.by == By::Leaving && seen.last_by == Some(By::Source)
    }),
    ("another row turns in a list that has left, and one goes", |seen| {
        seen.by == By::Left && displaced(seen, |_, _| true)
    }),
    ("a row turns at 1,024, one goes, and 1,024 stay", |seen| {
        stays_at(seen, |there| there == TOMBSTONE_LIMIT)
    }),
    ("the one that goes for a turned row has equals in expiry", |seen| {
        displaced(seen, |_, gone| {
            let expiry = gone.held.expiry();
            seen.before
                .tombstones()
                .filter(|row| row.held.expiry() == expiry)
                .count()
                > 1
        })
    }),
    (
        "the one that goes for a turned row is not the tombstone of lowest slot",
        |seen| {
            displaced(seen, |_, gone| {
                seen.before.tombstones().next().is_some_and(|first| first != gone)
            })
        },
    ),
    ("a row turns that expires before every tombstone", |seen| {
        displaced(seen, |row, gone| row.held.expiry() < gone.held.expiry())
    }),
    ("a row turns whose tag has a tombstone, which stays", |seen| {
        displaced(seen, |row, gone| {
            is_tombstoned(seen.before, row.held.tag()) && gone.held.tag() != row.held.tag()
        })
    }),
];

/// What no one list can have all of, or few have: the source judges some, and a list has one R.
pub const SELDOM: &[Corner] = &[
    ("a wrong secret at 1,024 or more, and nothing goes", |seen| {
        nothing_goes(seen, true, |tag| is_carried(seen.before, tag))
    }),
    ("an unknown tag at 1,024 or more, and nothing goes", |seen| {
        nothing_goes(seen, false, |tag| !is_carried(seen.before, tag))
    }),
    ("a row turns above 1,024, one goes, and as many stay", |seen| {
        stays_at(seen, |there| there > TOMBSTONE_LIMIT)
    }),
    ("a row turns where R = 1,024 are there", |seen| {
        stays_at(seen, |there| {
            there == TOMBSTONE_LIMIT && seen.sizes.tombstone_rows == TOMBSTONE_LIMIT
        })
    }),
    ("a row turns where all R are there, above 1,024", |seen| {
        stays_at(seen, |there| {
            there > TOMBSTONE_LIMIT && seen.sizes.tombstone_rows == there
        })
    }),
    ("a row turns at 1,023, and none goes", |seen| {
        seen.by == By::Source && turned(seen, |turn| turn.there == TOMBSTONE_LIMIT - 1 && turn.gone.is_none())
    }),
    (
        "a row that would turn is refused by 5 where R = 1,023 are there",
        |seen| {
            let all =
                tombstones(seen.before) == TOMBSTONE_LIMIT - 1 && seen.sizes.tombstone_rows == TOMBSTONE_LIMIT - 1;
            let refused = seen.by == By::Source && *seen.answer == Answer::Refused(5);
            matches!(seen.call, Call::Tomb { tag, .. } if all && refused && is_carried(seen.before, tag))
        },
    ),
    (
        "a row turns that expires with the one that goes, in a lower slot",
        |seen| {
            displaced(seen, |row, gone| {
                row.held.expiry() == gone.held.expiry() && row.slot < gone.slot
            })
        },
    ),
    ("the one that goes for a turned row is past", |seen| {
        displaced(seen, |_, gone| is_past(seen.before, gone))
    }),
    ("the one that goes for a turned row is not past", |seen| {
        displaced(seen, |_, gone| !is_past(seen.before, gone))
    }),
    ("a row turns whose tag has a tombstone, which goes", |seen| {
        displaced(seen, |row, gone| gone.held.tag() == row.held.tag())
    }),
    ("a row turns at 1,024 or more with the last slot used", |seen| {
        seen.before.next_slot == LAST_SLOT && displaced(seen, |_, _| true)
    }),
];

/// What comes after it, in lists that have left.
pub const AFTER: &[Corner] = &[
    ("left: a stored tombstone deletes one at 1,024 or more", |seen| {
        left(seen, |call, answer| {
            matches!(call, Call::StoredTombstone { .. }) && deletes(answer)
        })
    }),
    ("left: a tomb ends an own row, and a tombstone goes", |seen| {
        left(seen, |call, answer| {
            let own =
                matches!(answer, Answer::Done { actions, .. } if matches!(actions[..], [Action::OwnPut { .. }, ..]));
            matches!(call, Call::Tomb { .. }) && own && deletes(answer)
        })
    }),
    ("left: maintenance with 1,024 tombstones there deletes rows", |seen| {
        left(seen, |call, answer| {
            matches!(call, Call::Maintenance { .. }) && deletes(answer)
        })
    }),
    ("left: a save of 1,024 tombstones", |seen| {
        left(seen, |_, answer| matches!(answer, Answer::Saved(_)))
    }),
    ("left: the blob of a row with 1,024 tombstones there", |seen| {
        left(seen, |_, answer| matches!(answer, Answer::Blob(Some(_))))
    }),
    ("left: an inventory of ours with 1,024 tombstones there", |seen| {
        left(seen, |_, answer| matches!(answer, Answer::Listed(_)))
    }),
    ("left: an inventory sends a tomb", |seen| {
        left(seen, |call, answer| {
            matches!(call, Call::Inventory { .. }) && replies(answer, |reply| matches!(reply, Reply::Tomb(..)))
        })
    }),
    ("left: a page with 1,024 tombstones there", |seen| {
        left(seen, |_, answer| matches!(answer, Answer::Page(_)))
    }),
    ("left: an envelope is a duplicate of a tombstone", |seen| {
        left(seen, |call, answer| {
            let duplicate = replies(answer, |reply| matches!(reply, Reply::Custody(_, Custody::Duplicate)));
            matches!(call, Call::Envelope { envelope, .. } if duplicate && is_tombstoned(seen.before, &envelope.tag))
        })
    }),
    ("left: a wrong secret at 1,024 or more, and nothing goes", |seen| {
        left(seen, |call, answer| {
            let malformed = matches!(answer, Answer::Done { malformed: true, .. });
            matches!(call, Call::Tomb { tag, .. } if malformed && is_carried(seen.before, tag))
                && seen.before == seen.after
        })
    }),
];

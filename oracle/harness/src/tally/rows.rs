//! Corners of tombs, tombstones, maintenance, files and the window call.

use super::Corner;
use super::copies::has_one;
use crate::TOMBSTONE_LIMIT;
use crate::compare::judge::Seen;
use post::{Action, Answer, Call, ChainRow, Held, Kind, Reply, State, Tag};

const CARRIED: usize = 256;

fn actions<'a>(seen: &'a Seen, kind: Kind) -> &'a [Action] {
    match seen.answer {
        Answer::Done { actions, .. } if seen.call.kind() == kind => actions,
        _ => &[],
    }
}

/// A tomb that turned a carried row.
fn turned(seen: &Seen) -> bool {
    matches!(actions(seen, Kind::Tomb), [Action::Put { .. }])
}

fn malformed_tomb(seen: &Seen, holds: impl Fn(&Tag, &[u8; 16]) -> bool) -> bool {
    let malformed = matches!(seen.answer, Answer::Done { malformed: true, .. });
    matches!(seen.call, Call::Tomb { tag, secret, .. } if malformed && holds(tag, secret))
}

fn carried(state: &State, tag: &Tag) -> bool {
    state.carried().any(|(_, _, envelope)| envelope.tag == *tag)
}

/// How many envelopes of carried tags were sent.
fn carried_offers(seen: &Seen) -> usize {
    let Answer::Done { replies, .. } = seen.answer else {
        return 0;
    };
    let is_carried = |reply: &&Reply| matches!(reply, Reply::Envelope(envelope) if carried(seen.before, &envelope.tag));
    replies.iter().filter(is_carried).count()
}

fn ended(seen: &Seen) -> bool {
    matches!(actions(seen, Kind::Tomb), [Action::OwnPut { .. }, ..])
}

fn stored(seen: &Seen, count: usize) -> bool {
    let kinds = [Kind::StoredTombstone, Kind::Opened];
    kinds.contains(&seen.call.kind()) && matches!(seen.answer, Answer::Done { actions, .. } if actions.len() == count)
}

fn tombstones(state: &State) -> usize {
    state.tombstones().count()
}

/// The slots of the tombstones of least expiry.
fn of_least_expiry(state: &State) -> Vec<u64> {
    let least = state.tombstones().map(|row| row.held.expiry()).min();
    state
        .tombstones()
        .filter(|row| Some(row.held.expiry()) == least)
        .map(|row| row.slot)
        .collect()
}

/// One is stored where 1,024 are: one of least expiry goes though others expire later, and 1,024 stay.
fn least_goes(seen: &Seen) -> bool {
    let least = of_least_expiry(seen.before);
    let goes = match seen.answer {
        Answer::Done { actions, .. } => matches!(actions[..], [Action::Delete { slot }, _] if least.contains(&slot)),
        _ => false,
    };
    stored(seen, 2)
        && goes
        && least.len() < TOMBSTONE_LIMIT
        && [seen.before, seen.after].map(tombstones) == [TOMBSTONE_LIMIT; 2]
}

/// All that a post can hold, but for own rows: 256 carried rows and 1,024 tombstones.
pub fn full(state: &State) -> bool {
    let carried = state.carried().count();
    carried == CARRIED && state.held.len() == CARRIED + TOMBSTONE_LIMIT
}

/// The kinds of the rows that maintenance deleted, in its order: carried or not.
fn deleted(seen: &Seen) -> Vec<bool> {
    let slots = actions(seen, Kind::Maintenance)
        .iter()
        .filter_map(|action| match action {
            Action::Delete { slot } => Some(*slot),
            _ => None,
        });
    slots
        .filter_map(|slot| seen.before.held.iter().find(|row| row.slot == slot))
        .map(|row| row.held.is_carried())
        .collect()
}

fn own_puts(seen: &Seen) -> bool {
    actions(seen, Kind::Maintenance)
        .iter()
        .any(|action| matches!(action, Action::OwnPut { .. }))
}

fn loaded(seen: &Seen) -> bool {
    matches!(seen.call, Call::Load { .. }) && *seen.answer == Answer::nothing()
}

fn window(seen: &Seen, holds: impl Fn(usize, &[ChainRow], usize) -> bool) -> bool {
    match (seen.call, seen.answer) {
        (Call::Window { skipped, chains, .. }, Answer::Window(listed)) => {
            let chains: Vec<ChainRow> = chains.chunks_exact(ChainRow::WIDTH).map(ChainRow::read).collect();
            holds(skipped.len() / 6, &chains, listed.len())
        }
        _ => false,
    }
}

pub const CORNERS: &[Corner] = &[
    ("a carried row turns", turned),
    ("a carried row turns with the last slot used", |seen| {
        turned(seen) && seen.before.next_slot == u64::MAX
    }),
    ("a carried row with 0 copies turns", |seen| {
        turned(seen) && has_one(seen.before) && !has_one(seen.after)
    }),
    (
        "a wrong secret for a carried row, though an own row would match",
        |seen| {
            malformed_tomb(seen, |tag, secret| {
                carried(seen.before, tag)
                    && seen
                        .before
                        .own
                        .iter()
                        .any(|row| row.tag == *tag && row.secret == *secret)
            })
        },
    ),
    ("a wrong secret for an own row", |seen| {
        malformed_tomb(seen, |tag, _| !carried(seen.before, tag))
    }),
    ("a tomb ends an own row", ended),
    ("a tomb ends an own row whose tag has a tombstone", |seen| {
        ended(seen) && actions(seen, Kind::Tomb).len() == 1
    }),
    ("a tomb ends an own row and a tombstone goes for its own", |seen| {
        ended(seen) && actions(seen, Kind::Tomb).len() == 3
    }),
    ("a stored tombstone deletes one at 1,024", |seen| {
        stored(seen, 2) && tombstones(seen.before) == TOMBSTONE_LIMIT
    }),
    ("a stored tombstone deletes one above 1,024", |seen| {
        stored(seen, 2) && tombstones(seen.before) > TOMBSTONE_LIMIT
    }),
    ("a stored tombstone deletes none at 1,023", |seen| {
        stored(seen, 1) && tombstones(seen.before) == TOMBSTONE_LIMIT - 1
    }),
    ("the deleted tombstone has equals in expiry", |seen| {
        stored(seen, 2) && of_least_expiry(seen.before).len() > 1
    }),
    ("one of least expiry goes at 1,024, and 1,024 stay", least_goes),
    ("256 carried rows and 1,024 tombstones at once", |seen| full(seen.after)),
    ("a save of 256 carried rows and 1,024 tombstones", |seen| {
        matches!(seen.answer, Answer::Saved(_)) && full(seen.before)
    }),
    ("an inventory that offers most of 256 carried rows", |seen| {
        full(seen.before) && carried_offers(seen) > CARRIED / 2
    }),
    ("nothing is stored at 1,024, the tag has a tombstone", |seen| {
        stored(seen, 0) && tombstones(seen.before) >= TOMBSTONE_LIMIT
    }),
    ("a carried tag is tombstoned", |seen| {
        let tag = match seen.call {
            Call::StoredTombstone { tag, .. } | Call::Opened { tag, .. } => tag,
            _ => return false,
        };
        stored(seen, 1) && carried(seen.before, tag)
    }),
    ("opened where nothing is stored", |seen| {
        seen.call.kind() == Kind::Opened && stored(seen, 0)
    }),
    ("opened with an expiry past the lifetime end", |seen| {
        let end = (seen.before.clock / 60).saturating_add(u64::from(seen.before.setting.lifetime));
        matches!(seen.call, Call::Opened { expiry, .. } if u64::from(*expiry) > end && stored(seen, 1))
    }),
    ("failed for a tag that is bad already, with no row left", |seen| {
        seen.call.kind() == Kind::Failed
            && seen.before.bad.len() == seen.sizes.bad_rows
            && matches!(seen.answer, Answer::Done { .. })
    }),
    ("an own row is renewed", |seen| {
        own_puts(seen) && seen.after.own.iter().any(|row| row.renewed)
    }),
    ("an own row is dropped", |seen| {
        own_puts(seen) && seen.after.own.len() < seen.before.own.len()
    }),
    ("maintenance deletes a tombstone before a carried row", |seen| {
        deleted(seen).windows(2).any(|pair| pair == [false, true])
    }),
    ("maintenance deletes a carried row before a tombstone", |seen| {
        deleted(seen).windows(2).any(|pair| pair == [true, false])
    }),
    ("maintenance deletes a row of this minute", |seen| {
        let now = seen.before.clock / 60;
        !deleted(seen).is_empty() && seen.before.held.iter().any(|row| u64::from(row.held.expiry()) == now)
    }),
    ("a load with offers standing", |seen| {
        loaded(seen) && seen.before.exchanges.iter().any(|open| !open.offered.is_empty())
    }),
    ("a load with bad tags there", |seen| {
        loaded(seen) && !seen.before.bad.is_empty()
    }),
    ("a load with the last slot as next", |seen| {
        loaded(seen) && seen.after.next_slot == u64::MAX
    }),
    ("a load of all cells", |seen| {
        loaded(seen) && seen.after.carried().count() == seen.sizes.carried_cells
    }),
    ("a load of all tombstone rows", |seen| {
        loaded(seen) && tombstones(seen.after) == seen.sizes.tombstone_rows
    }),
    ("a load of 256 carried rows", |seen| {
        loaded(seen) && seen.after.carried().count() == CARRIED
    }),
    ("a load of two tombstones of one tag", |seen| {
        let tags: Vec<&Tag> = seen.after.tombstones().map(|row| row.held.tag()).take(40).collect();
        loaded(seen) && tags.iter().enumerate().any(|(place, tag)| tags[..place].contains(tag))
    }),
    ("a save of a row with 0 copies", |seen| {
        seen.call.kind() == Kind::Save && has_one(seen.before)
    }),
    ("a tombstone of expiry 0 is read", |seen| {
        matches!(seen.answer, Answer::Row(Some(Held::Tombstone { expiry: 0, .. })))
    }),
    ("a window of 499 skipped and one chain entry", |seen| {
        window(seen, |skipped, chains, listed| {
            skipped == 499 && chains.len() == 1 && listed == 500
        })
    }),
    ("a window of 500 skipped and no chain entry", |seen| {
        window(seen, |skipped, chains, listed| {
            skipped == 500 && !chains.is_empty() && listed == 500
        })
    }),
    ("a chain with next 2^32 lists none", |seen| {
        window(seen, |skipped, chains, listed| {
            chains.len() == 1 && chains[0].next == 1 << 32 && skipped < 500 && listed == skipped
        })
    }),
    ("a chain near its end leaves entries to another", |seen| {
        window(seen, |skipped, chains, listed| {
            let near = chains
                .last()
                .is_some_and(|chain| chain.next > (1 << 32) - 400 && chain.next < 1 << 32);
            near && chains.len() > 1 && skipped < 6 && listed > skipped + 400
        })
    }),
];

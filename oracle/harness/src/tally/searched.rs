//! Corners of request Three: the count at the end of an inventory.

use super::Corner;
use crate::TOMBSTONE_LIMIT;
use crate::compare::judge::Seen;
use post::{Answer, Call, Prefix, Reply, State, Tag};

/// An own or a carried row that may be offered.
struct Row {
    tag: Tag,
    copies: u8,
    expiry: u32,
}

/// An inventory that was not refused, as it met the post, and what it was answered.
struct Met<'a> {
    state: &'a State,
    peer: u64,
    listed: &'a [Prefix],
    ends: bool,
    malformed: bool,
    offers: usize,
    searched: usize,
    /// Own rows that are not for the peer, and carried rows.
    rows: Vec<Row>,
}

fn rows(state: &State, peer: u64) -> Vec<Row> {
    let own = state.own.iter().filter(|row| row.contact != peer).map(|row| Row {
        tag: row.tag,
        copies: row.copies,
        expiry: row.expiry,
    });
    let carried = state.carried().map(|(_, _, envelope)| Row {
        tag: envelope.tag,
        copies: envelope.copies,
        expiry: envelope.expiry,
    });
    own.chain(carried).collect()
}

impl<'a> Met<'a> {
    fn of(seen: &'a Seen) -> Option<Self> {
        let (
            Call::Inventory {
                exchange,
                peer,
                prefixes,
                ..
            },
            Answer::Done {
                malformed,
                replies,
                searched,
                ..
            },
        ) = (seen.call, seen.answer)
        else {
            return None;
        };
        let is_offer = |reply: &&Reply| matches!(reply, Reply::Envelope(_));
        Some(Self {
            state: seen.before,
            peer: *peer,
            listed: &seen.before.exchanges[*exchange].listed,
            ends: prefixes.is_empty() && !malformed,
            malformed: *malformed,
            offers: replies.iter().filter(is_offer).count(),
            searched: *searched,
            rows: rows(seen.before, *peer),
        })
    }

    fn is_listed(&self, tag: &Tag) -> bool {
        self.listed.iter().any(|prefix| tag.starts_with(prefix))
    }

    fn is_tombstoned(&self, tag: &Tag) -> bool {
        self.state.tombstones().any(|row| row.held.tag() == tag)
    }

    fn is_past(&self, expiry: u32) -> bool {
        u64::from(expiry) <= self.state.clock / 60
    }

    fn is_in_question(&self, row: &Row) -> bool {
        row.copies > 1 && !self.is_listed(&row.tag)
    }

    /// A row that is counted, and of which this holds.
    fn counts(&self, holds: impl Fn(&Row) -> bool) -> bool {
        self.rows.iter().any(|row| self.is_in_question(row) && holds(row))
    }

    /// Two rows of one tag are counted, and of the tag this holds.
    fn counts_twice(&self, holds: impl Fn(&Tag) -> bool) -> bool {
        let counted: Vec<&Tag> = self
            .rows
            .iter()
            .filter(|row| self.is_in_question(row))
            .map(|row| &row.tag)
            .collect();
        (1..counted.len()).any(|place| counted[..place].contains(&counted[place]) && holds(counted[place]))
    }

    fn has_past_tombstone(&self, tag: &Tag) -> bool {
        let mut tombstones = self.state.tombstones().filter(|row| row.held.tag() == tag);
        tombstones.any(|row| self.is_past(row.held.expiry()))
    }
}

/// An end that is done.
fn ended(seen: &Seen, holds: impl Fn(&Met) -> bool) -> bool {
    Met::of(seen).is_some_and(|met| met.ends && holds(&met))
}

/// No end that is done: a count of 0 though there are rows that an end would count.
fn uncounted(seen: &Seen, malformed: bool) -> bool {
    let is_so = |met: &Met| !met.ends && met.malformed == malformed && met.searched == 0;
    Met::of(seen).is_some_and(|met| is_so(&met) && met.counts(|_| true))
}

const ONE_BYTE: usize = 255;

pub const CORNERS: &[Corner] = &[
    ("a count above the number of offers", |seen| {
        ended(seen, |met| met.searched > met.offers)
    }),
    ("a count above 0 and no offer", |seen| {
        ended(seen, |met| met.searched > 0 && met.offers == 0)
    }),
    ("a count that is the number of offers, and above 0", |seen| {
        ended(seen, |met| met.offers > 0 && met.searched == met.offers)
    }),
    (
        "a count of 0: rows of two copies and more, and all are listed",
        |seen| {
            ended(seen, |met| {
                met.searched == 0 && met.rows.iter().any(|row| row.copies > 1)
            })
        },
    ),
    ("a count of 0: rows, and none of two copies", |seen| {
        ended(seen, |met| {
            met.searched == 0 && !met.rows.is_empty() && met.rows.iter().all(|row| row.copies < 2)
        })
    }),
    ("a count of 0: no row at all", |seen| {
        ended(seen, |met| met.searched == 0 && met.rows.is_empty())
    }),
    ("a listed row is not counted, and another is", |seen| {
        ended(seen, |met| {
            let listed = |row: &Row| row.copies > 1 && met.is_listed(&row.tag);
            met.searched > 0 && met.rows.iter().any(listed)
        })
    }),
    ("a row both listed and tombstoned is not counted", |seen| {
        ended(seen, |met| {
            let both = |row: &Row| row.copies > 1 && met.is_listed(&row.tag) && met.is_tombstoned(&row.tag);
            met.rows.iter().any(both)
        })
    }),
    ("a row with 1 copy is not counted, and another row is", |seen| {
        ended(seen, |met| {
            let one = |row: &Row| row.copies == 1 && !met.is_listed(&row.tag);
            met.searched > 0 && met.rows.iter().any(one)
        })
    }),
    ("a row with no copies is not counted", |seen| {
        ended(seen, |met| {
            met.rows.iter().any(|row| row.copies == 0 && !met.is_listed(&row.tag))
        })
    }),
    ("two rows of one tag are both counted", |seen| {
        ended(seen, |met| met.counts_twice(|tag| !met.is_tombstoned(tag)))
    }),
    ("two rows of one tombstoned tag are both counted", |seen| {
        ended(seen, |met| met.counts_twice(|tag| met.is_tombstoned(tag)))
    }),
    ("an own row for the peer is not counted", |seen| {
        ended(seen, |met| {
            let mut own = met.state.own.iter().filter(|row| row.contact == met.peer);
            own.any(|row| row.copies > 1 && !met.is_listed(&row.tag))
        })
    }),
    ("a tombstoned own row is counted", |seen| {
        ended(seen, |met| {
            let mut own = met.state.own.iter().filter(|row| row.contact != met.peer);
            own.any(|row| row.copies > 1 && !met.is_listed(&row.tag) && met.is_tombstoned(&row.tag))
        })
    }),
    ("a row that is past is counted", |seen| {
        ended(seen, |met| met.counts(|row| met.is_past(row.expiry)))
    }),
    ("a row is counted whose tombstone is past", |seen| {
        ended(seen, |met| met.counts(|row| met.has_past_tombstone(&row.tag)))
    }),
    ("a count where 1,024 tombstones are", |seen| {
        ended(seen, |met| {
            met.searched > 0 && met.state.tombstones().count() >= TOMBSTONE_LIMIT
        })
    }),
    ("a count above 255", |seen| ended(seen, |met| met.searched > ONE_BYTE)),
    ("a list that is gathered counts 0 though rows are held", |seen| {
        uncounted(seen, false)
    }),
    ("a malformed inventory counts 0 though rows are held", |seen| {
        uncounted(seen, true)
    }),
];

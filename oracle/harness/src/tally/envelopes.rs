//! Corners of an envelope's custody, of own rows, of the clock.

use super::Corner;
use crate::compare::judge::Seen;
use post::{Answer, Call, Custody, Envelope, Kind, OwnRow, Reply, State, Verification};
use std::collections::BTreeSet;

fn minute(state: &State) -> u64 {
    (state.clock / 60).min(u64::from(u32::MAX))
}

/// The peer, the envelope and the code, where an envelope got one.
fn coded<'a>(seen: &'a Seen) -> Option<(u64, &'a Envelope, Custody)> {
    match (seen.call, seen.answer) {
        (Call::Envelope { peer, envelope, .. }, Answer::Done { replies, .. }) => match replies[..] {
            [Reply::Custody(_, code)] => Some((*peer, envelope, code)),
            _ => None,
        },
        _ => None,
    }
}

fn got(seen: &Seen, code: Custody, holds: impl Fn(u64, &Envelope) -> bool) -> bool {
    coded(seen).is_some_and(|(peer, envelope, got)| got == code && holds(peer, envelope))
}

fn rows_of(state: &State, peer: u64) -> usize {
    state.carried().filter(|(_, depositor, _)| *depositor == peer).count()
}

fn depositors(state: &State) -> usize {
    let all: BTreeSet<u64> = state.carried().map(|(_, depositor, _)| depositor).collect();
    all.len()
}

fn verified(state: &State, peer: u64) -> bool {
    state
        .contacts
        .iter()
        .any(|contact| contact.id == peer && contact.verification == Verification::Verified)
}

/// So many rows of this depositor before, fewer than 256 in all, and this code.
fn quota(seen: &Seen, is_verified: bool, rows: usize, code: Custody) -> bool {
    got(seen, code, |peer, _| {
        verified(seen.before, peer) == is_verified
            && rows_of(seen.before, peer) == rows
            && seen.before.carried().count() < 256
    })
}

fn is_own(state: &State, envelope: &Envelope) -> bool {
    state.own.iter().any(|row| row.tag == envelope.tag)
}

fn ours(seen: &Seen, holds: impl Fn(u64, &Envelope) -> bool) -> bool {
    match (seen.call, seen.answer) {
        (Call::Envelope { peer, envelope, .. }, Answer::Ours { .. }) => holds(*peer, envelope),
        _ => false,
    }
}

/// All cells used, and a code all the same.
fn all_cells(seen: &Seen, code: Custody) -> bool {
    let cells = seen.sizes.carried_cells;
    got(seen, code, |_, _| seen.before.carried().count() == cells && cells < 256)
}

fn clock(seen: &Seen, holds: impl Fn(u64, u64) -> bool) -> bool {
    matches!(seen.call, Call::Clock { seconds } if holds(seen.before.clock, *seconds))
}

fn follows(later: &OwnRow, row: &OwnRow) -> bool {
    later.contact == row.contact && later.message > row.message
}

pub const CORNERS: &[Corner] = &[
    ("a 16th row of a depositor that is not verified is accepted", |seen| {
        quota(seen, false, 15, Custody::Accepted)
    }),
    ("a 17th row of a depositor that is not verified is Full", |seen| {
        quota(seen, false, 16, Custody::Full)
    }),
    ("a 32nd row of a verified depositor is accepted", |seen| {
        quota(seen, true, 31, Custody::Accepted)
    }),
    ("a 33rd row of a verified depositor is Full", |seen| {
        quota(seen, true, 32, Custody::Full)
    }),
    ("over 16 rows of a depositor that is no longer verified", |seen| {
        got(seen, Custody::Full, |peer, _| {
            !verified(seen.before, peer) && rows_of(seen.before, peer) > 16
        })
    }),
    ("a 256th carried row is accepted", |seen| {
        got(seen, Custody::Accepted, |_, _| seen.before.carried().count() == 255)
    }),
    (
        "a 256th carried row is accepted, and eight depositors have one",
        |seen| {
            got(seen, Custody::Accepted, |_, _| {
                seen.after.carried().count() == 256 && depositors(seen.after) >= 8
            })
        },
    ),
    ("256 carried rows are Full to a depositor below its quota", |seen| {
        got(seen, Custody::Full, |peer, _| {
            seen.before.carried().count() == 256 && rows_of(seen.before, peer) < 16
        })
    }),
    ("Duplicate by an own row alone", |seen| {
        let held = |envelope: &Envelope| seen.before.held.iter().any(|row| *row.held.tag() == envelope.tag);
        got(seen, Custody::Duplicate, |_, envelope| {
            is_own(seen.before, envelope) && !held(envelope)
        })
    }),
    ("Duplicate by a tombstone alone", |seen| {
        let carried = |envelope: &Envelope| seen.before.carried().any(|(_, _, other)| other.tag == envelope.tag);
        got(seen, Custody::Duplicate, |_, envelope| {
            !is_own(seen.before, envelope) && !carried(envelope)
        })
    }),
    ("copies become the configured", |seen| {
        got(seen, Custody::Accepted, |_, envelope| {
            envelope.copies > seen.before.setting.copies
        })
    }),
    ("expiry becomes the lifetime end", |seen| {
        let end = minute(seen.before) + u64::from(seen.before.setting.lifetime);
        got(seen, Custody::Accepted, |_, envelope| u64::from(envelope.expiry) > end)
    }),
    ("an expiry of the next minute is accepted", |seen| {
        got(seen, Custody::Accepted, |_, envelope| {
            u64::from(envelope.expiry) == minute(seen.before) + 1
        })
    }),
    ("an expiry of this minute is Invalid", |seen| {
        let alone = |envelope: &Envelope| envelope.copies > 0 && envelope.ciphertext.len() == 48;
        got(seen, Custody::Invalid, |_, envelope| {
            u64::from(envelope.expiry) == minute(seen.before) && alone(envelope)
        })
    }),
    ("a ciphertext of 2,064 is accepted", |seen| {
        got(seen, Custody::Accepted, |_, envelope| envelope.ciphertext.len() == 2064)
    }),
    ("a ciphertext of 4,064 is Invalid", |seen| {
        got(seen, Custody::Invalid, |_, envelope| envelope.ciphertext.len() == 4064)
    }),
    ("all cells used and Invalid", |seen| all_cells(seen, Custody::Invalid)),
    ("all cells used and Duplicate", |seen| {
        all_cells(seen, Custody::Duplicate)
    }),
    ("all cells used and Off", |seen| all_cells(seen, Custody::Off)),
    ("Off where the envelope is Invalid too", |seen| {
        got(seen, Custody::Off, |_, envelope| {
            u64::from(envelope.expiry) <= minute(seen.before)
        })
    }),
    ("Invalid where the tag is a duplicate too", |seen| {
        got(seen, Custody::Invalid, |_, envelope| {
            seen.before.held.iter().any(|row| *row.held.tag() == envelope.tag)
        })
    }),
    ("ours though the tag is bad for the peer", |seen| {
        ours(seen, |peer, envelope| seen.before.bad.contains(&(peer, envelope.tag)))
    }),
    ("ours though couriers are off", |seen| {
        ours(seen, |_, _| !seen.before.setting.enabled)
    }),
    ("ours though the tag is carried", |seen| {
        ours(seen, |_, envelope| {
            seen.before.carried().any(|(_, _, other)| other.tag == envelope.tag)
        })
    }),
    ("the clock goes back", |seen| clock(seen, |before, now| now < before)),
    ("the clock goes to 2^64 - 1", |seen| {
        clock(seen, |_, now| now == u64::MAX)
    }),
    ("an envelope in a minute that is stopped at 2^32 - 1", |seen| {
        got(seen, Custody::Invalid, |_, envelope| {
            seen.before.clock / 60 > u64::from(u32::MAX) && envelope.expiry == u32::MAX
        })
    }),
    ("a lifetime end stopped at 2^32 - 1", |seen| {
        let end = minute(seen.before) + u64::from(seen.before.setting.lifetime);
        got(seen, Custody::Accepted, |_, _| end > u64::from(u32::MAX))
    }),
    ("no envelope: inner length 4,048", |seen| {
        *seen.answer == Answer::NoEnvelope
            && matches!(seen.call, Call::OwnEnvelope(new) if new.ciphertext.len() == 4064)
    }),
    ("no envelope: 256 own rows there", |seen| {
        *seen.answer == Answer::NoEnvelope && seen.before.own.len() == 256
    }),
    ("a 256th own row", |seen| {
        matches!(seen.answer, Answer::Own(_)) && seen.before.own.len() == 255
    }),
    (
        "an own row before others of its contact",
        |seen| matches!(seen.answer, Answer::Own(row) if seen.after.own.iter().any(|other| follows(other, row))),
    ),
    ("a 256th contact", |seen| {
        seen.before.contacts.len() == 255 && seen.after.contacts.len() == 256
    }),
    ("a contact altered at 256", |seen| {
        seen.call.kind() == Kind::Contact && seen.before.contacts.len() == 256 && *seen.answer == Answer::nothing()
    }),
];

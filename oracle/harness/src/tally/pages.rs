//! Corners of the screen page.

use super::Corner;
use crate::compare::judge::Seen;
use post::{Answer, Call, Screen};

const LINE: usize = 81;
const ROWS: usize = 19;
const AREA: usize = 1_620;

/// The rows of a page that was answered, without its heading.
fn rows<'a>(seen: &'a Seen) -> Option<Vec<&'a [u8]>> {
    match seen.answer {
        Answer::Page(Screen(page)) => Some(page.chunks(LINE).skip(1).collect()),
        _ => None,
    }
}

fn with_rows(seen: &Seen, holds: impl Fn(&[&[u8]]) -> bool) -> bool {
    rows(seen).is_some_and(|rows| holds(&rows))
}

/// A page that was answered, with its number and the length of its area.
fn with_inputs(seen: &Seen, holds: impl Fn(u64, usize) -> bool) -> bool {
    let answered = matches!(seen.answer, Answer::Page(_));
    matches!(seen.call, Call::Page { number, areas } if answered && holds(*number, areas.answer))
}

/// A row of the kind has this text from the column on, which is counted from 1.
fn has(seen: &Seen, kind: u8, column: usize, text: &str) -> bool {
    let fits = |row: &&[u8]| row[21] == kind && row[column - 1..].starts_with(text.as_bytes());
    with_rows(seen, |rows| rows.iter().any(fits))
}

fn is_of_this_minute(seen: &Seen) -> bool {
    let now = seen.before.clock / 60;
    let slots = seen
        .before
        .held
        .iter()
        .filter(|row| u64::from(row.held.expiry()) == now);
    let slots: Vec<String> = slots.map(|row| format!("{:>20}", row.slot)).collect();
    with_rows(seen, |rows| {
        rows.iter()
            .any(|row| slots.iter().any(|slot| row.starts_with(slot.as_bytes())))
    })
}

pub const CORNERS: &[Corner] = &[
    ("a page of 19 rows", |seen| with_rows(seen, |rows| rows.len() == ROWS)),
    ("a last page of fewer than 19 rows, behind others", |seen| {
        with_rows(seen, |rows| (1..ROWS).contains(&rows.len())) && with_inputs(seen, |number, _| number > 0)
    }),
    ("the page past the last, of held rows", |seen| {
        let pages = seen.before.held.len().div_ceil(ROWS) as u64;
        with_inputs(seen, |number, _| pages > 0 && number == pages)
    }),
    ("page 0 of no held row", |seen| {
        seen.before.held.is_empty() && with_inputs(seen, |number, _| number == 0)
    }),
    ("a page of both kinds", |seen| {
        with_rows(seen, |rows| {
            [b'C', b'T'].iter().all(|kind| rows.iter().any(|row| row[21] == *kind))
        })
    }),
    ("a page with a tombstone before a carried row", |seen| {
        with_rows(seen, |rows| {
            rows.windows(2).any(|pair| pair[0][21] == b'T' && pair[1][21] == b'C')
        })
    }),
    ("a page with a carried row that is past", |seen| {
        has(seen, b'C', 47, "past")
    }),
    ("a page with a tombstone that is past", |seen| {
        has(seen, b'T', 47, "past")
    }),
    ("a page with a row of this minute", is_of_this_minute),
    ("a page with a row of 1 minute left", |seen| {
        has(seen, b'C', 41, "         1") || has(seen, b'T', 41, "         1")
    }),
    ("a page with a row of 0 copies", |seen| has(seen, b'C', 52, "  0")),
    ("a page with a slot of 20 digits", |seen| {
        has(seen, b'C', 1, "1") || has(seen, b'T', 1, "1")
    }),
    ("a page with a depositor of 20 digits", |seen| has(seen, b'C', 56, "1")),
    ("a page with 10 digits of minutes left", |seen| {
        has(seen, b'C', 41, "4") || has(seen, b'T', 41, "4")
    }),
    ("a page number of 2^64 - 1", |seen| {
        with_inputs(seen, |number, _| number == u64::MAX)
    }),
    (
        "a page number above 2^32 that is a page there, cut to 32 bits",
        |seen| {
            let pages = seen.before.held.len().div_ceil(ROWS) as u64;
            with_inputs(seen, |number, _| number >= 1 << 32 && number % (1 << 32) < pages)
        },
    ),
    (
        "a page number of which 19 times is a row there, cut to 64 bits",
        |seen| {
            let first = |number: u64| number.wrapping_mul(ROWS as u64);
            with_inputs(seen, |number, _| {
                number > u64::MAX / ROWS as u64 && first(number) < seen.before.held.len() as u64
            })
        },
    ),
    ("a page in 1,620 bytes", |seen| {
        with_inputs(seen, |_, area| area == AREA)
    }),
    ("a page in 1,621 bytes", |seen| {
        with_inputs(seen, |_, area| area == AREA + 1)
    }),
    ("a page in an area that is much longer", |seen| {
        with_inputs(seen, |_, area| area > 2 * AREA)
    }),
    ("a page refused for 1,619 bytes", |seen| {
        let refused = *seen.answer == Answer::Refused(1);
        matches!(seen.call, Call::Page { areas, .. } if refused && areas.answer == AREA - 1)
    }),
    ("a page of 256 carried rows and 1,024 tombstones", |seen| {
        with_rows(seen, |_| true) && super::rows::full(seen.before)
    }),
];

//! Pages of areas that no call left.

use lent::{Outcome, Said};
use post::Call;

const REFUSED: &str = "refused";
const SOME: &str = "with rows";
const FALLING: &str = "with a slot below the one before";
const EQUAL: &str = "with a tombstone behind a carried row of its slot";
#[cfg(feature = "library")]
pub const ALL: [&str; 4] = [REFUSED, SOME, FALLING, EQUAL];

/// Slot and kind of each row, as they stand.
fn rows(page: &[u8]) -> Vec<(&[u8], u8)> {
    page.chunks(81).skip(1).map(|row| (&row[..20], row[21])).collect()
}

/// What a page that was asked for met.
pub fn met(call: &Call, outcome: &Outcome) -> Vec<(&'static str, bool)> {
    if !matches!(call, Call::Page { .. }) {
        return Vec::new();
    }
    let rows = rows(&outcome.bytes);
    // Slots of one width, blanks before digits: their order is that of the numbers.
    let falling = rows.windows(2).any(|pair| pair[1].0 < pair[0].0);
    let equal = |pair: &[(&[u8], u8)]| pair[0].0 == pair[1].0 && pair[0].1 == b'C' && pair[1].1 == b'T';
    vec![
        (REFUSED, matches!(outcome.said, Said::Refused(_))),
        (SOME, !rows.is_empty()),
        (FALLING, falling),
        (EQUAL, rows.windows(2).any(equal)),
    ]
}

//! Corners of request Five: carried rows with 0 copies, which are read back.

use super::Corner;
use crate::compare::judge::{By, Seen};
use post::{Answer, Call, Envelope, FileRecord, Held, Post, State, array, encode_file};
use reference::raw;
use rules::Rules;

const HEAD: usize = 46;

/// Such a row was read.
fn read(seen: &Seen, holds: impl Fn(&Envelope) -> bool) -> bool {
    let is_so = seen.by == By::ReadWith1;
    matches!(seen.answer, Answer::Row(Some(Held::Carried { envelope, .. })) if is_so && holds(envelope))
}

fn expiry(blob: &[u8]) -> u32 {
    u32::from_be_bytes(array(blob, 41))
}

/// Such a blob is no row: the source's own answer.
fn unread(seen: &Seen, holds: impl Fn(&[u8]) -> bool) -> bool {
    let is_none = seen.by == By::Source && *seen.answer == Answer::Row(None);
    matches!(seen.call, Call::RowRead { blob } if is_none && raw::is_without_copies(blob) && holds(blob))
}

/// The blob with expiry 1, if it is that of such a row with expiry 0.
fn with_expiry_1(blob: &[u8]) -> Option<Vec<u8>> {
    let is_dead = raw::is_without_copies(blob) && expiry(blob) == 0;
    is_dead.then(|| [&blob[..44], &[1], &blob[45..]].concat())
}

pub fn has_one(state: &State) -> bool {
    state.carried().any(|(_, _, envelope)| envelope.copies == 0)
}

/// A load of a file with such a row that is answered so.
fn load(seen: &Seen, answer: Answer) -> bool {
    seen.by == By::ReadWith1 && matches!(seen.call, Call::Load { .. }) && *seen.answer == answer
}

fn loaded(seen: &Seen, holds: impl Fn(&Envelope) -> bool) -> bool {
    load(seen, Answer::nothing()) && seen.after.carried().any(|(_, _, envelope)| holds(envelope))
}

/// A file with such a blob is refused by 8: the source's own answer.
fn refused(seen: &Seen, holds: impl Fn(&[u8]) -> bool) -> bool {
    let is_8 = seen.by == By::Source && *seen.answer == Answer::Refused(8);
    let is_one = |record: &FileRecord| matches!(record, FileRecord::Row(_, _, blob) if raw::is_without_copies(blob) && holds(blob));
    match seen.call {
        Call::Load { file } if is_8 => post::records(file).is_some_and(|records| records.iter().any(is_one)),
        _ => false,
    }
}

/// A file with such rows of expiry 0 is refused by 8 for nothing else: with expiry 1 in them the second statement does not refuse it by 8.
fn refused_for_expiry(seen: &Seen) -> bool {
    let Call::Load { file } = seen.call else {
        return false;
    };
    if !refused(seen, |blob| expiry(blob) == 0) {
        return false;
    }
    let mut records = post::records(file).expect("read");
    for record in &mut records {
        if let FileRecord::Row(_, _, blob) = record
            && let Some(other) = with_expiry_1(blob)
        {
            *blob = other;
        }
    }
    let file = encode_file(&records);
    Rules::holding(seen.sizes, seen.before.clone()).perform(&Call::Load { file }) != Answer::Refused(8)
}

/// Rows that are read back, and rows of expiry 0, which are not.
pub const READ_BACK: &[Corner] = &[
    ("a carried row with 0 copies is read", |seen| read(seen, |_| true)),
    ("a carried row with 0 copies and expiry 0 is not read", |seen| {
        unread(seen, |blob| {
            with_expiry_1(blob).is_some_and(|other| raw::read_row(&other).is_some())
        })
    }),
    ("a file with a row of 0 copies is loaded", |seen| {
        load(seen, Answer::nothing())
    }),
    ("a file with rows of 0 copies and of more is loaded", |seen| {
        loaded(seen, |envelope| envelope.copies > 0)
    }),
    ("the rows there, one of 0 copies, are loaded again", |seen| {
        load(seen, Answer::nothing()) && seen.before.held == seen.after.held
    }),
    (
        "a file is refused by 8 only because a row of 0 copies has expiry 0",
        refused_for_expiry,
    ),
];

/// What few lists have.
pub const SELDOM: &[Corner] = &[
    ("a carried row with 0 copies and expiry 1 is read", |seen| {
        read(seen, |envelope| envelope.expiry == 1)
    }),
    ("a carried row with 0 copies and another length is not read", |seen| {
        unread(seen, |blob| blob.len() > HEAD && expiry(blob) > 0)
    }),
    ("a file with a row of 0 copies that is past is loaded", |seen| {
        let now = seen.before.clock / 60;
        loaded(seen, |envelope| {
            envelope.copies == 0 && u64::from(envelope.expiry) <= now
        })
    }),
    ("a file with a row of 0 copies is refused by 4", |seen| {
        load(seen, Answer::Refused(4))
    }),
    ("a file with a row of 0 copies is refused by 5", |seen| {
        load(seen, Answer::Refused(5))
    }),
    ("a file with a row of 0 copies is refused by 8", |seen| {
        refused(seen, |blob| expiry(blob) > 0)
    }),
];

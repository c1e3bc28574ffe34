//! The cases of every call on full areas: what is called, beside what of the source, and what must be answered.

use crate::calls;
use crate::pair::{Pair, Shape};
use post::{Answer, Call, Custody, Reply};

/// What a call must answer for its case to be the one that is named; the functions are of the rows.
#[derive(Clone, Copy)]
pub enum Expected {
    Nothing,
    Malformed,
    NoEnvelope,
    Code(Custody),
    Ours,
    Replies(fn(usize) -> usize),
    /// The end of an inventory: its replies, and for how many rows the tombstones are searched.
    Ended(fn(usize) -> usize, fn(usize) -> usize),
    Actions(fn(usize) -> usize),
    Prefixes(fn(usize) -> usize),
    Rows(fn(usize) -> usize),
    Own,
    Row,
    Bytes,
}
use Expected::*;

#[derive(Clone, Copy)]
pub struct Case {
    pub name: &'static str,
    /// What of the source is timed, or what stands for it; empty where it has nothing of the kind.
    pub beside: &'static str,
    pub call: fn(&mut Pair) -> Call,
    pub expected: Expected,
    pub shape: fn(usize) -> Shape,
    /// Calls under one reading of the clock; the posts are put back before it.
    pub calls: usize,
    /// Whether the source computes the tags of its window in the call, and does not find them in its cache.
    pub forgets: bool,
}

/// A call that changes the post.
fn changes(name: &'static str, beside: &'static str, call: fn(&mut Pair) -> Call, expected: Expected) -> Case {
    Case { name, beside, call, expected, shape: Shape::of, calls: 1, forgets: false }
}

/// A call that finds the same the next time.
fn reads(name: &'static str, beside: &'static str, call: fn(&mut Pair) -> Call, expected: Expected) -> Case {
    Case { calls: 16, ..changes(name, beside, call, expected) }
}

impl Case {
    fn on(self, shape: fn(usize) -> Shape) -> Self {
        Self { shape, ..self }
    }

    fn forgetting(self) -> Self {
        Self { forgets: true, ..self }
    }
}

// ---- posts that are not quite full

fn with_room(rows: usize) -> Shape {
    Shape { carried: rows - 1, own: rows - 1, ..Shape::of(rows) }
}

fn with_room_and_window(rows: usize) -> Shape {
    Shape { window: Shape::with_window(rows).window, ..with_room(rows) }
}

fn at_quota(rows: usize) -> Shape {
    Shape { carried: (rows - 1).max(16), at_quota: true, ..Shape::of(rows) }
}

/// One tombstone less than those at which a row that turns takes one out: there the source answers alike.
fn below_limit(rows: usize) -> Shape {
    Shape { tombstones: 4 * rows - 1, ..Shape::of(rows) }
}

// ---- the cases

pub const RECORD: &str = "`courier_record`";
const OPENING: &str = "`courier_record`, its opening stubbed";
const OWN: &str = "`own_envelope`";
const MAINTAIN: &str = "`maintain_couriers`";
const BLOB: &str = "`Held::row`";
const TURNED: &str = "plain Rust, `source/turned.rs`";

const FULL: usize = 256;

fn envelopes() -> Vec<Case> {
    let accepted = changes("envelope: Accepted", RECORD, calls::new_envelope, Code(Custody::Accepted)).on(with_room);
    let with_window = Case { name: "envelope, 5,000 window rows: Accepted", ..accepted.on(with_room_and_window) };
    vec![
        accepted,
        changes("envelope: Duplicate of the last row", RECORD, calls::envelope_of_last, Code(Custody::Duplicate)),
        changes("envelope: Full by the quota", RECORD, calls::new_envelope, Code(Custody::Full)).on(at_quota),
        with_window,
        Case { name: "the same, the source's tags computed", ..with_window.forgetting() },
        changes("envelope, 5,000 window rows: ours by the last", RECORD, calls::envelope_of_ours, Ours)
            .on(Shape::with_window),
        reads("fetch: the last row", RECORD, calls::fetch_last, Replies(|_| 1)),
        changes("own envelope: for the last contact", OWN, calls::own_of_last_contact, Own).on(with_room),
        changes("own envelope: for the first contact", OWN, calls::own_of_first_contact, Own).on(with_room),
        reads("own envelope: none, of 4,064 bytes", OWN, calls::own_too_long, NoEnvelope),
    ]
}

fn exchanges() -> Vec<Case> {
    let list = changes("inventory received: 512 prefixes listed", RECORD, calls::list, Replies(|_| 0));
    let every_row = |rows| 2 * rows;
    let ended = changes("inventory received: its end", RECORD, calls::terminator, Ended(|rows| 4 * rows, every_row));
    let no_row_listed = Case {
        name: "inventory received: its end, no row listed",
        call: calls::end_of_others,
        expected: Ended(every_row, every_row),
        ..ended
    };
    let with_window = Case {
        name: "inventory received, 5,000 window rows: its end",
        expected: Ended(|rows| 6 * rows, every_row),
        ..ended.on(Shape::with_window)
    };
    let delivered = Case {
        name: "inventory received, 5,000 window rows, those listed tombstoned: its end",
        ..ended.on(Shape::with_delivered)
    };
    vec![
        list,
        Case { name: "inventory received, 5,000 window rows: 512 prefixes listed", ..list.on(Shape::with_window) },
        ended,
        no_row_listed,
        with_window,
        Case { name: "the same, the source's tags computed", ..with_window.forgetting() },
        delivered,
        changes("custody code: Accepted, the last carried row", RECORD, calls::accepted_last_carried, Actions(|_| 1)),
        changes("custody code: Accepted, the last own row", RECORD, calls::accepted_last_own, Actions(|_| 1)),
        changes("custody code: Full, the last offer", RECORD, calls::full_last_carried, Nothing),
        reads("inventory of ours", "`inventory`", calls::inventory_of_ours, Prefixes(|rows| 2 * rows)),
    ]
}

/// At 1,024 tombstones one is deleted first.
fn stored(rows: usize) -> usize {
    if rows == FULL { 2 } else { 1 }
}

fn tombstones() -> Vec<Case> {
    vec![
        changes("tomb: the last carried row", RECORD, calls::tomb_of_last, Actions(|_| 1)).on(below_limit),
        changes("tomb: the first carried row", RECORD, calls::tomb_of_first, Actions(|_| 1)).on(below_limit),
        changes("tomb: at 1,024, one goes", TURNED, calls::tomb_at_limit, Actions(stored)),
        changes("tomb: the last own row", RECORD, calls::tomb_of_own, Actions(|rows| 1 + stored(rows))),
        changes("stored tombstone: the first goes", "`store_tombstone`", calls::stored_tombstone, Actions(stored)),
        changes("report opened: the first goes", OPENING, calls::opened, Actions(stored)),
        changes("report failed", OPENING, calls::failed, Malformed),
        changes("maintenance: half has expired", MAINTAIN, calls::late_maintenance, Actions(|rows| 3 * rows)),
        changes("maintenance: nothing has expired", MAINTAIN, calls::maintenance, Nothing),
    ]
}

fn rows() -> Vec<Case> {
    vec![
        reads("row blob: the last carried row", BLOB, calls::blob_of_last_carried, Bytes),
        reads("row blob: the last tombstone", BLOB, calls::blob_of_last_tombstone, Bytes),
        reads("row read", "`Device::restore` of one row", calls::row_read, Row),
        reads("save", "`Held::row` of every row", calls::save, Bytes),
        changes("load", "`Device::restore`", calls::load, Nothing),
        reads("window", "`Receiver::window`", calls::window, Rows(|rows| (2 * rows).min(500))),
    ]
}

fn settings() -> Vec<Case> {
    vec![
        reads("contact: the last altered", "", calls::contact, Nothing),
        reads("fresh exchange: with the last contact", "", calls::fresh_exchange, Nothing),
        reads("setting", "", calls::setting, Nothing),
        reads("clock", "", calls::clock, Nothing),
    ]
}

pub fn all() -> Vec<Case> {
    [envelopes(), exchanges(), tombstones(), rows(), settings()].concat()
}

impl Expected {
    pub fn is(&self, answer: &Answer, rows: usize) -> bool {
        match (self, answer) {
            (Nothing, answer) => *answer == Answer::nothing(),
            (Malformed, Answer::Done { malformed, .. }) => *malformed,
            (Code(code), Answer::Done { replies, .. }) => {
                matches!(replies[..], [Reply::Custody(_, said)] if said == *code)
            }
            (Replies(count), Answer::Done { malformed, replies, .. }) => !malformed && replies.len() == count(rows),
            (Ended(count, rows_of), Answer::Done { malformed, replies, searched, .. }) => {
                !malformed && replies.len() == count(rows) && *searched == rows_of(rows)
            }
            (Actions(count), Answer::Done { malformed, actions, .. }) => !malformed && actions.len() == count(rows),
            (Prefixes(count), Answer::Listed(prefixes)) => prefixes.len() == count(rows),
            (Rows(count), Answer::Window(listed)) => listed.len() == count(rows),
            (Ours, Answer::Ours { .. }) | (Own, Answer::Own(_)) | (Row, Answer::Row(Some(_))) => true,
            (NoEnvelope, Answer::NoEnvelope) | (Bytes, Answer::Blob(Some(_)) | Answer::Saved(_)) => true,
            _ => false,
        }
    }
}

//! The screen page: rows of both tables as one merge has them, their lines written byte by byte.

use crate::own::merged;
use crate::rows::{Carried, Tombstone};
use crate::state::{Change, Lent, Outcome, State, Step, refused};

const ROWS: usize = 19;
/// A line, and its end.
const LINE: usize = 80;
const WIDTH: usize = LINE + 1;
const BYTES: usize = WIDTH * (1 + ROWS);
const PREFIX: usize = 8;

/// The column behind the last of each field, counted from 0.
const SLOT_END: usize = 20;
const KIND: usize = 21;
const PREFIX_AT: usize = 23;
const LEFT_END: usize = 50;
const COPIES_END: usize = 54;
const DEPOSITOR_END: usize = 75;

/// What a line is made of; a tombstone has neither copies nor depositor.
struct Shown<'a> {
    slot: u64,
    kind: u8,
    tag: &'a [u8; 16],
    expiry: u32,
    last: Option<(u8, u64)>,
}

impl<'a> From<&'a Carried> for Shown<'a> {
    fn from(row: &'a Carried) -> Self {
        Self {
            slot: row.slot,
            kind: b'C',
            tag: &row.tag,
            expiry: row.expiry,
            last: Some((row.copies, row.depositor)),
        }
    }
}

impl<'a> From<&'a Tombstone> for Shown<'a> {
    fn from(row: &'a Tombstone) -> Self {
        Self {
            slot: row.slot,
            kind: b'T',
            tag: &row.tag,
            expiry: row.expiry,
            last: None,
        }
    }
}

fn blank() -> [u8; WIDTH] {
    let mut line = [b' '; WIDTH];
    line[LINE] = b'\n';
    line
}

/// The digits of a number before a column, the lowest first.
fn put_digits(line: &mut [u8], end: usize, mut number: u64) {
    for place in line[..end].iter_mut().rev() {
        *place = b"0123456789"[(number % 10) as usize];
        number /= 10;
        if number == 0 {
            return;
        }
    }
}

fn put_prefix(line: &mut [u8], tag: &[u8; 16]) {
    let places = line[PREFIX_AT..].chunks_exact_mut(2);
    for (place, byte) in places.zip(&tag[..PREFIX]) {
        let digit = |half: u8| b"0123456789abcdef"[usize::from(half)];
        place.copy_from_slice(&[digit(byte >> 4), digit(byte & 15)]);
    }
}

impl Shown<'_> {
    fn line(&self, minute: u32) -> [u8; WIDTH] {
        let mut line = blank();
        put_digits(&mut line, SLOT_END, self.slot);
        line[KIND] = self.kind;
        put_prefix(&mut line, self.tag);
        if self.expiry > minute {
            put_digits(&mut line, LEFT_END, (self.expiry - minute).into());
        } else {
            line[LEFT_END - 4..LEFT_END].copy_from_slice(b"past");
        }
        if let Some((copies, depositor)) = self.last {
            put_digits(&mut line, COPIES_END, copies.into());
            put_digits(&mut line, DEPOSITOR_END, depositor);
        }
        line
    }
}

impl State<'_> {
    /// All held rows in the order in which pages have them.
    fn shown(&self) -> Vec<Shown<'_>> {
        let carried = self.carried.iter().map(Shown::from).collect();
        let tombstones = self.tombstones.iter().map(Shown::from).collect();
        let slot = |row: &Shown| row.slot;
        if self.reading.tombstones_first {
            merged(tombstones, carried, slot)
        } else {
            merged(carried, tombstones, slot)
        }
    }

    pub fn page(&self, lent: &Lent, number: u64) -> Step {
        if lent.answer < BYTES {
            return refused(1);
        }
        let mut page = blank().to_vec();
        page[..4].copy_from_slice(b"HELD");
        // A page whose first row has no number is past the last.
        let first = usize::try_from(number).ok().and_then(|number| number.checked_mul(ROWS));
        if let Some(first) = first {
            for row in self.shown().iter().skip(first).take(ROWS) {
                page.extend_from_slice(&row.line(self.minute()));
            }
        }
        (Outcome::wrote(page.len(), page), Change::default())
    }
}

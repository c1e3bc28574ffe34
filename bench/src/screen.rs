//! The screen page as plain Rust programs: with `write!` of rows in a `BTreeMap`, as the source has them, and by hand of rows in two `Vec`s.

use post::{Held, Tag, array};
use std::collections::BTreeMap;
use std::fmt::{self, Display, Formatter};
use std::io::Write;

pub const LINE: usize = 81;
pub const ROWS: usize = 19;
pub const PAGE: usize = LINE * (1 + ROWS);

/// How many rows stand before a page.
fn before(page: u64) -> usize {
    usize::try_from(page).map_or(usize::MAX, |page| page.saturating_mul(ROWS))
}

// ---- with `write!`

/// Minutes left.
struct Left {
    minute: u32,
    expiry: u32,
}

impl Display for Left {
    fn fmt(&self, f: &mut Formatter<'_>) -> fmt::Result {
        match self.expiry.checked_sub(self.minute) {
            Some(0) | None => f.pad("past"),
            Some(left) => left.fmt(f),
        }
    }
}

pub struct Map {
    pub minute: u32,
    pub held: BTreeMap<u64, Held>,
}

impl Map {
    #[inline(never)]
    pub fn page(&self, page: u64, out: &mut Vec<u8>) -> std::io::Result<()> {
        out.clear();
        writeln!(out, "{:<80}", "HELD")?;
        for (slot, held) in self.held.iter().skip(before(page)).take(ROWS) {
            let prefix = u64::from_be_bytes(array(held.tag(), 0));
            let left = |expiry| Left { minute: self.minute, expiry };
            match held {
                Held::Carried { depositor, envelope } => writeln!(
                    out,
                    "{slot:>20} C {prefix:016x} {:>10} {:>3} {depositor:>20}     ",
                    left(envelope.expiry),
                    envelope.copies
                )?,
                Held::Tombstone { expiry, .. } => {
                    writeln!(out, "{slot:>20} T {prefix:016x} {:>10}{:30}", left(*expiry), "")?;
                }
            }
        }
        Ok(())
    }
}

// ---- by hand

struct Carried {
    slot: u64,
    depositor: u64,
    tag: Tag,
    expiry: u32,
    copies: u8,
}

struct Tombstone {
    slot: u64,
    tag: Tag,
    expiry: u32,
}

pub struct Tables {
    minute: u32,
    carried: Vec<Carried>,
    tombstones: Vec<Tombstone>,
}

enum Row<'a> {
    Carried(&'a Carried),
    Tombstone(&'a Tombstone),
}

/// The rows of both tables by slot.
struct Merged<'a> {
    carried: &'a [Carried],
    tombstones: &'a [Tombstone],
}

impl<'a> Iterator for Merged<'a> {
    type Item = Row<'a>;

    fn next(&mut self) -> Option<Row<'a>> {
        match (self.carried, self.tombstones) {
            ([], []) => None,
            (carried, [first, rest @ ..]) if carried.first().is_none_or(|row| first.slot < row.slot) => {
                self.tombstones = rest;
                Some(Row::Tombstone(first))
            }
            ([first, rest @ ..], _) => {
                self.carried = rest;
                Some(Row::Carried(first))
            }
            ([], [_, ..]) => unreachable!("a tombstone is next if no row is carried"),
        }
    }
}

/// A number at the right of its blank column.
fn put_number(column: &mut [u8], mut number: u64) {
    for byte in column.iter_mut().rev() {
        *byte = b'0' + (number % 10) as u8;
        number /= 10;
        if number == 0 {
            break;
        }
    }
}

fn put_prefix(column: &mut [u8], tag: &Tag) {
    const DIGITS: &[u8; 16] = b"0123456789abcdef";
    for (digits, byte) in column.chunks_exact_mut(2).zip(tag) {
        digits[0] = DIGITS[usize::from(byte >> 4)];
        digits[1] = DIGITS[usize::from(byte & 15)];
    }
}

/// A line that is blank, but for its end.
fn blank(line: &mut [u8]) {
    line[..LINE - 1].fill(b' ');
    line[LINE - 1] = b'\n';
}

impl Tables {
    /// The tables of rows that come by slot.
    pub fn of(minute: u32, held: &[(u64, Held)]) -> Self {
        let mut tables = Self { minute, carried: Vec::new(), tombstones: Vec::new() };
        for (slot, held) in held {
            let (slot, tag) = (*slot, *held.tag());
            match held {
                Held::Carried { depositor, envelope } => tables.carried.push(Carried {
                    slot,
                    depositor: *depositor,
                    tag,
                    expiry: envelope.expiry,
                    copies: envelope.copies,
                }),
                Held::Tombstone { expiry, .. } => tables.tombstones.push(Tombstone { slot, tag, expiry: *expiry }),
            }
        }
        tables
    }

    fn put_front(&self, line: &mut [u8], slot: u64, kind: u8, tag: &Tag, expiry: u32) {
        put_number(&mut line[..20], slot);
        line[21] = kind;
        put_prefix(&mut line[23..39], tag);
        if expiry > self.minute {
            put_number(&mut line[40..50], (expiry - self.minute).into());
        } else {
            line[46..50].copy_from_slice(b"past");
        }
    }

    /// Writes a page to the front of an area, and answers its bytes.
    #[inline(never)]
    pub fn page(&self, page: u64, area: &mut [u8; PAGE]) -> usize {
        let (heading, lines) = area.split_at_mut(LINE);
        blank(heading);
        heading[..4].copy_from_slice(b"HELD");
        let rows = Merged { carried: &self.carried, tombstones: &self.tombstones };
        let mut length = LINE;
        for (row, line) in rows.skip(before(page)).zip(lines.chunks_exact_mut(LINE)) {
            blank(line);
            match row {
                Row::Carried(row) => {
                    self.put_front(line, row.slot, b'C', &row.tag, row.expiry);
                    put_number(&mut line[51..54], row.copies.into());
                    put_number(&mut line[55..75], row.depositor);
                }
                Row::Tombstone(row) => self.put_front(line, row.slot, b'T', &row.tag, row.expiry),
            }
            length += LINE;
        }
        length
    }
}

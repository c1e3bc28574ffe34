//! The rows of the areas that a caller fills: windows, skipped keys and chains.

use crate::{Bytes, Tag, array};

/// A row of 30 bytes: contact, direction, generation, index, tag. Any direction byte can stand here.
#[derive(Debug, Clone, Copy, PartialEq, Eq)]
pub struct WindowRow {
    pub contact: u64,
    pub dir: u8,
    pub generation: u8,
    pub index: u32,
    pub tag: Tag,
}

impl WindowRow {
    pub const WIDTH: usize = 30;

    pub fn key(&self) -> (u64, u8, u8, u32) {
        (self.contact, self.dir, self.generation, self.index)
    }

    pub fn read(row: &[u8]) -> Self {
        Self {
            contact: u64::from_be_bytes(array(row, 0)),
            dir: row[8],
            generation: row[9],
            index: u32::from_be_bytes(array(row, 10)),
            tag: array(row, 14),
        }
    }

    pub fn write(&self, out: &mut Vec<u8>) {
        out.extend_from_slice(&self.contact.to_be_bytes());
        out.extend_from_slice(&[self.dir, self.generation]);
        out.extend_from_slice(&self.index.to_be_bytes());
        out.extend_from_slice(&self.tag);
    }
}

/// A row of 6 bytes: direction, generation, index.
#[derive(Debug, Clone, Copy, PartialEq, Eq)]
pub struct SkippedRow {
    pub dir: u8,
    pub generation: u8,
    pub index: u32,
}

impl SkippedRow {
    pub const WIDTH: usize = 6;

    pub fn read(row: &[u8]) -> Self {
        Self {
            dir: row[0],
            generation: row[1],
            index: u32::from_be_bytes(array(row, 2)),
        }
    }

    pub fn write(&self, out: &mut Vec<u8>) {
        out.extend_from_slice(&[self.dir, self.generation]);
        out.extend_from_slice(&self.index.to_be_bytes());
    }
}

/// A row of 10 bytes: direction, generation, next.
#[derive(Debug, Clone, Copy, PartialEq, Eq)]
pub struct ChainRow {
    pub dir: u8,
    pub generation: u8,
    pub next: u64,
}

impl ChainRow {
    pub const WIDTH: usize = 10;

    pub fn read(row: &[u8]) -> Self {
        Self {
            dir: row[0],
            generation: row[1],
            next: u64::from_be_bytes(array(row, 2)),
        }
    }

    pub fn write(&self, out: &mut Vec<u8>) {
        out.extend_from_slice(&[self.dir, self.generation]);
        out.extend_from_slice(&self.next.to_be_bytes());
    }
}

fn encoded<T>(rows: &[T], write: impl Fn(&T, &mut Vec<u8>)) -> Bytes {
    let mut out = Vec::new();
    for row in rows {
        write(row, &mut out);
    }
    out.into()
}

pub fn encode_window(rows: &[WindowRow]) -> Bytes {
    encoded(rows, WindowRow::write)
}

pub fn encode_skipped(rows: &[SkippedRow]) -> Bytes {
    encoded(rows, SkippedRow::write)
}

pub fn encode_chains(rows: &[ChainRow]) -> Bytes {
    encoded(rows, ChainRow::write)
}

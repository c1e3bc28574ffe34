//! The rows of the areas: any bytes are a row.

use post::{Prefix, Tag, array};

pub trait Row: Sized {
    const WIDTH: usize;
    fn read(row: &[u8]) -> Self;
    fn write(&self) -> Vec<u8>;
}

/// The rows at the front of an area; a count above what fits is what fits.
pub fn table<R: Row>(area: &[u8], count: usize) -> Vec<R> {
    area.chunks_exact(R::WIDTH).take(count).map(R::read).collect()
}

#[derive(Debug, Clone, Copy, PartialEq, Eq)]
pub struct Carried {
    pub slot: u64,
    pub depositor: u64,
    pub tag: Tag,
    pub commitment: [u8; 16],
    pub expiry: u32,
    pub copies: u8,
    pub len: u16,
    pub cell: u16,
}

#[derive(Debug, Clone, Copy, PartialEq, Eq)]
pub struct Own {
    pub contact: u64,
    pub message: u32,
    pub tag: Tag,
    pub secret: [u8; 16],
    pub expiry: u32,
    pub copies: u8,
    pub renewed: u8,
    pub len: u16,
    pub cell: u16,
}

#[derive(Debug, Clone, Copy, PartialEq, Eq)]
pub struct Tombstone {
    pub slot: u64,
    pub tag: Tag,
    pub secret: [u8; 16],
    pub expiry: u32,
}

#[derive(Debug, Clone, Copy, PartialEq, Eq)]
pub struct ContactRow {
    pub id: u64,
    pub verification: u8,
}

#[derive(Debug, Clone, Copy, PartialEq, Eq)]
pub struct BadTag {
    pub peer: u64,
    pub tag: Tag,
}

#[derive(Debug, Clone, Copy, PartialEq, Eq)]
pub struct Offer {
    pub tag: Tag,
    pub copies: u8,
}

fn u64_at(row: &[u8], at: usize) -> u64 {
    u64::from_be_bytes(array(row, at))
}

fn u32_at(row: &[u8], at: usize) -> u32 {
    u32::from_be_bytes(array(row, at))
}

fn u16_at(row: &[u8], at: usize) -> u16 {
    u16::from_be_bytes(array(row, at))
}

impl Row for Carried {
    const WIDTH: usize = 57;

    fn read(row: &[u8]) -> Self {
        Self {
            slot: u64_at(row, 0),
            depositor: u64_at(row, 8),
            tag: array(row, 16),
            commitment: array(row, 32),
            expiry: u32_at(row, 48),
            copies: row[52],
            len: u16_at(row, 53),
            cell: u16_at(row, 55),
        }
    }

    fn write(&self) -> Vec<u8> {
        [
            &self.slot.to_be_bytes()[..],
            &self.depositor.to_be_bytes(),
            &self.tag,
            &self.commitment,
            &self.expiry.to_be_bytes(),
            &[self.copies],
            &self.len.to_be_bytes(),
            &self.cell.to_be_bytes(),
        ]
        .concat()
    }
}

impl Row for Own {
    const WIDTH: usize = 54;

    fn read(row: &[u8]) -> Self {
        Self {
            contact: u64_at(row, 0),
            message: u32_at(row, 8),
            tag: array(row, 12),
            secret: array(row, 28),
            expiry: u32_at(row, 44),
            copies: row[48],
            renewed: row[49],
            len: u16_at(row, 50),
            cell: u16_at(row, 52),
        }
    }

    fn write(&self) -> Vec<u8> {
        [
            &self.contact.to_be_bytes()[..],
            &self.message.to_be_bytes(),
            &self.tag,
            &self.secret,
            &self.expiry.to_be_bytes(),
            &[self.copies, self.renewed],
            &self.len.to_be_bytes(),
            &self.cell.to_be_bytes(),
        ]
        .concat()
    }
}

impl Row for Tombstone {
    const WIDTH: usize = 44;

    fn read(row: &[u8]) -> Self {
        Self {
            slot: u64_at(row, 0),
            tag: array(row, 8),
            secret: array(row, 24),
            expiry: u32_at(row, 40),
        }
    }

    fn write(&self) -> Vec<u8> {
        [
            &self.slot.to_be_bytes()[..],
            &self.tag,
            &self.secret,
            &self.expiry.to_be_bytes(),
        ]
        .concat()
    }
}

impl Row for ContactRow {
    const WIDTH: usize = 9;

    fn read(row: &[u8]) -> Self {
        Self {
            id: u64_at(row, 0),
            verification: row[8],
        }
    }

    fn write(&self) -> Vec<u8> {
        [&self.id.to_be_bytes()[..], &[self.verification]].concat()
    }
}

impl Row for BadTag {
    const WIDTH: usize = 24;

    fn read(row: &[u8]) -> Self {
        Self {
            peer: u64_at(row, 0),
            tag: array(row, 8),
        }
    }

    fn write(&self) -> Vec<u8> {
        [&self.peer.to_be_bytes()[..], &self.tag].concat()
    }
}

impl Row for Offer {
    const WIDTH: usize = 17;

    fn read(row: &[u8]) -> Self {
        Self {
            tag: array(row, 0),
            copies: row[16],
        }
    }

    fn write(&self) -> Vec<u8> {
        [&self.tag[..], &[self.copies]].concat()
    }
}

impl Row for Prefix {
    const WIDTH: usize = 8;

    fn read(row: &[u8]) -> Self {
        array(row, 0)
    }

    fn write(&self) -> Vec<u8> {
        self.to_vec()
    }
}

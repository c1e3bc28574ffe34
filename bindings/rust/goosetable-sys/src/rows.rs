//! Rows read from their bytes, and written.

use crate::*;

/// What is left of a row, read field by field. A field that is not there is the caller's mistake, and panics.
pub struct Fields<'a>(pub &'a [u8]);

impl Fields<'_> {
    pub fn array<const N: usize>(&mut self) -> [u8; N] {
        let (field, rest) = self.0.split_first_chunk().expect("a row has its fields");
        self.0 = rest;
        *field
    }

    pub fn u8(&mut self) -> u8 {
        u8::from_be_bytes(self.array())
    }

    pub fn u16(&mut self) -> u16 {
        u16::from_be_bytes(self.array())
    }

    pub fn u32(&mut self) -> u32 {
        u32::from_be_bytes(self.array())
    }

    pub fn u64(&mut self) -> u64 {
        u64::from_be_bytes(self.array())
    }
}

/// An own row.
#[derive(Clone, Copy, Debug, PartialEq, Eq)]
pub struct OwnRow {
    pub contact: u64,
    pub msgno: u32,
    pub tag: [u8; TAG],
    pub secret: [u8; TAG],
    pub expiry: u32,
    pub copies: u8,
    pub renewed: bool,
    /// Bytes of its ciphertext, and the cell in which they lie.
    pub length: u16,
    pub cell: u16,
}

impl OwnRow {
    pub fn read(row: &[u8; OWN_ROW]) -> OwnRow {
        let mut fields = Fields(row);
        OwnRow {
            contact: fields.u64(),
            msgno: fields.u32(),
            tag: fields.array(),
            secret: fields.array(),
            expiry: fields.u32(),
            copies: fields.u8(),
            renewed: fields.u8() != 0,
            length: fields.u16(),
            cell: fields.u16(),
        }
    }

    pub fn bytes(&self) -> [u8; OWN_ROW] {
        let mut bytes = [0; OWN_ROW];
        bytes[..8].copy_from_slice(&self.contact.to_be_bytes());
        bytes[8..12].copy_from_slice(&self.msgno.to_be_bytes());
        bytes[12..28].copy_from_slice(&self.tag);
        bytes[28..44].copy_from_slice(&self.secret);
        bytes[44..48].copy_from_slice(&self.expiry.to_be_bytes());
        bytes[48] = self.copies;
        bytes[49] = u8::from(self.renewed);
        bytes[50..52].copy_from_slice(&self.length.to_be_bytes());
        bytes[52..].copy_from_slice(&self.cell.to_be_bytes());
        bytes
    }
}

/// A reply: its kind (`REPLY_FETCH` and so on), the cell of an envelope's ciphertext, and its body, which begins with the tag.
#[derive(Clone, Copy, Debug, PartialEq, Eq)]
pub struct ReplyRow {
    pub kind: u8,
    pub cell: u16,
    pub body: [u8; BODY],
}

impl ReplyRow {
    pub fn read(row: &[u8; REPLY_ROW]) -> ReplyRow {
        let mut fields = Fields(row);
        ReplyRow {
            kind: fields.u8(),
            cell: fields.u16(),
            body: fields.array(),
        }
    }
}

/// An action: its kind (`ACTION_PUT` and so on), the slot or contact, and an own put's message number.
#[derive(Clone, Copy, Debug, PartialEq, Eq)]
pub struct ActionRow {
    pub kind: u8,
    pub number: u64,
    pub msgno: u32,
}

impl ActionRow {
    pub fn read(row: &[u8; ACTION_ROW]) -> ActionRow {
        let mut fields = Fields(row);
        ActionRow {
            kind: fields.u8(),
            number: fields.u64(),
            msgno: fields.u32(),
        }
    }
}

/// A skipped or listed key.
#[derive(Clone, Copy, Debug, PartialEq, Eq)]
pub struct KeyRow {
    pub direction: u8,
    pub generation: u8,
    pub index: u32,
}

impl KeyRow {
    pub fn read(row: &[u8; KEY_ROW]) -> KeyRow {
        let mut fields = Fields(row);
        KeyRow {
            direction: fields.u8(),
            generation: fields.u8(),
            index: fields.u32(),
        }
    }

    pub fn bytes(&self) -> [u8; KEY_ROW] {
        let [a, b, c, d] = self.index.to_be_bytes();
        [self.direction, self.generation, a, b, c, d]
    }
}

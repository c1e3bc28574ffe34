//! Rows read from their bytes.

use crate::{
    Commitment, ContactId, Custody, Direction, Envelope, Header, MessageKey, Secret, Slot, Tag,
    Verification, calls,
};
pub(crate) use goosetable_sys::Fields;
use goosetable_sys::{
    self as sys, BAD_TAG_ROW, CARRIED_HEAD, CARRIED_ROW, CONTACT_ROW, KEY_ROW, OWN_ROW, Row,
    TOMBSTONE_ROW,
};

/// The fields of a row as this crate's types.
pub(crate) trait Typed {
    fn contact(&mut self) -> ContactId;
    fn slot(&mut self) -> Slot;
    fn tag(&mut self) -> Tag;
    fn secret(&mut self) -> Secret;
    fn header(&mut self) -> Header;
    /// The code of a custody reply.
    fn custody(&mut self) -> Custody;
    /// A key that the window call listed: its direction is `I` or `R`.
    fn message_key(&mut self) -> MessageKey;
}

impl Typed for Fields<'_> {
    fn contact(&mut self) -> ContactId {
        ContactId(self.u64())
    }

    fn slot(&mut self) -> Slot {
        Slot(self.u64())
    }

    fn tag(&mut self) -> Tag {
        Tag(self.array())
    }

    fn secret(&mut self) -> Secret {
        Secret(self.array())
    }

    fn header(&mut self) -> Header {
        Header {
            tag: self.tag(),
            commitment: Commitment(self.array()),
            expiry_min: self.u32(),
            copies: self.u8(),
        }
    }

    fn custody(&mut self) -> Custody {
        Custody::from_code(self.u8()).expect("a custody reply has a code from 0 to 4")
    }

    fn message_key(&mut self) -> MessageKey {
        let key = sys::KeyRow::read(&self.array::<KEY_ROW>());
        MessageKey {
            direction: Direction::from_label(key.direction).expect("a key has a direction"),
            generation: key.generation,
            index: key.index,
        }
    }
}

/// A contact, as [`Post::contacts`](crate::Post::contacts) has it.
#[derive(Clone, Copy, Debug, PartialEq, Eq)]
#[non_exhaustive]
pub struct Contact {
    /// Its number.
    pub id: ContactId,
    /// How far it is trusted. In areas that no call left a byte that stands for nothing counts as unverified.
    pub verification: Verification,
}

impl Contact {
    pub(crate) fn read(row: &[u8; CONTACT_ROW]) -> Contact {
        let mut fields = Fields(row);
        Contact {
            id: fields.contact(),
            verification: Verification::from_code(fields.u8()).unwrap_or(Verification::Unverified),
        }
    }
}

/// A tag that is bad for a peer, as [`Post::bad_tags`](crate::Post::bad_tags) has it.
#[derive(Clone, Copy, Debug, PartialEq, Eq)]
#[non_exhaustive]
pub struct BadTag {
    /// Whose envelope could not be opened.
    pub peer: ContactId,
    /// The envelope's tag.
    pub tag: Tag,
}

impl BadTag {
    pub(crate) fn read(row: &[u8; BAD_TAG_ROW]) -> BadTag {
        let mut fields = Fields(row);
        BadTag {
            peer: fields.contact(),
            tag: fields.tag(),
        }
    }
}

/// A tombstone, as [`Post::tombstones`](crate::Post::tombstones) has it: what is left of an envelope that was
/// delivered.
#[derive(Clone, Copy, Debug, PartialEq, Eq)]
#[non_exhaustive]
pub struct Tombstone {
    /// Where it is stored.
    pub slot: Slot,
    /// The envelope's tag.
    pub tag: Tag,
    /// The proof of its delivery.
    pub secret: Secret,
    /// The minute from which the row is expired.
    pub expiry_min: u32,
}

impl Tombstone {
    pub(crate) fn read(row: &[u8; TOMBSTONE_ROW]) -> Tombstone {
        let mut fields = Fields(row);
        Tombstone {
            slot: fields.slot(),
            tag: fields.tag(),
            secret: fields.secret(),
            expiry_min: fields.u32(),
        }
    }
}

/// An envelope that is carried for others, as [`Post::carried`](crate::Post::carried) has it.
#[derive(Clone, Copy, Debug, PartialEq, Eq)]
#[non_exhaustive]
pub struct CarriedRow<'a> {
    /// Where it is stored.
    pub slot: Slot,
    /// Who left it here.
    pub depositor: ContactId,
    /// What is carried. It has no byte of ciphertext if the row has a cell that does not count.
    pub envelope: Envelope<'a>,
}

/// The head of a carried row, and where its ciphertext lies.
pub(crate) struct CarriedHead {
    pub(crate) slot: Slot,
    pub(crate) depositor: ContactId,
    pub(crate) header: Header,
    pub(crate) place: Place,
}

impl CarriedHead {
    pub(crate) fn read(row: &[u8; CARRIED_ROW]) -> CarriedHead {
        let mut fields = Fields(row);
        CarriedHead {
            slot: fields.slot(),
            depositor: fields.contact(),
            header: fields.header(),
            place: Place {
                len: fields.u16(),
                cell: fields.u16(),
            },
        }
    }
}

/// An own envelope: the courier copies of a queued message. Two rows are equal wherever their ciphertexts lie: a row
/// that was put back in another cell is the same row.
#[derive(Clone, Copy, Debug)]
#[non_exhaustive]
pub struct OwnRow {
    /// Whom the message is for.
    pub contact: ContactId,
    /// Its number among the messages for this contact.
    pub message: u32,
    /// The envelope's route tag.
    pub tag: Tag,
    /// What the envelope's commitment is of.
    pub secret: Secret,
    /// The minute from which it is expired.
    pub expiry_min: u32,
    /// Copies that are left.
    pub copies: u8,
    /// Did it expire once?
    pub renewed: bool,
    pub(crate) place: Place,
}

impl PartialEq for OwnRow {
    fn eq(&self, other: &OwnRow) -> bool {
        self.in_cell(0).to_bytes() == other.in_cell(0).to_bytes()
    }
}

impl Eq for OwnRow {}

/// Where a row's ciphertext lies: the cell, and the bytes of it.
#[derive(Clone, Copy, Debug, PartialEq, Eq)]
pub(crate) struct Place {
    pub(crate) len: u16,
    pub(crate) cell: u16,
}

impl OwnRow {
    /// Bytes of an own row.
    pub const SIZE: usize = OWN_ROW;

    /// The bytes under which a host stores the row, with its ciphertext: after
    /// [`Post::own_envelope`](crate::Post::own_envelope), and for each [`Action::OwnPut`](crate::Action::OwnPut).
    pub fn to_bytes(&self) -> [u8; OWN_ROW] {
        let row = sys::OwnRow {
            contact: self.contact.0,
            msgno: self.message,
            tag: self.tag.0,
            secret: self.secret.0,
            expiry: self.expiry_min,
            copies: self.copies,
            renewed: self.renewed,
            length: self.place.len,
            cell: self.place.cell,
        };
        row.bytes()
    }

    /// The row that stored bytes are, for [`Post::restore_own_row`](crate::Post::restore_own_row).
    pub fn from_bytes(bytes: &[u8; OWN_ROW]) -> OwnRow {
        let row = sys::OwnRow::read(bytes);
        OwnRow {
            contact: ContactId(row.contact),
            message: row.msgno,
            tag: Tag(row.tag),
            secret: Secret(row.secret),
            expiry_min: row.expiry,
            copies: row.copies,
            renewed: row.renewed,
            place: Place {
                len: row.length,
                cell: row.cell,
            },
        }
    }

    /// The row with its ciphertext in a cell.
    pub(crate) fn in_cell(self, cell: u16) -> OwnRow {
        let len = self.place.len;
        OwnRow {
            place: Place { len, cell },
            ..self
        }
    }

    /// Bytes of its ciphertext.
    pub fn ciphertext_len(&self) -> usize {
        usize::from(self.place.len)
    }
}

/// A held row, as it is stored.
#[derive(Clone, Copy, Debug, PartialEq, Eq)]
pub enum HeldRow<'a> {
    /// An envelope that is carried.
    Carried {
        /// Who left it here.
        depositor: ContactId,
        /// What is carried.
        envelope: Envelope<'a>,
    },
    /// An envelope that was delivered.
    Tombstone {
        /// The envelope's tag.
        tag: Tag,
        /// The proof of its delivery.
        secret: Secret,
        /// The minute from which the row is expired.
        expiry_min: u32,
    },
}

/// The held row of a blob, if it is one: a carried row has any number of copies, 0 where all were handed on, an
/// expiry above 0, and a ciphertext of a length that couriers carry.
pub fn row_read(blob: &[u8]) -> Option<HeldRow<'_>> {
    held_row(calls::row_read(blob), blob)
}

/// The same as [`row_read`]. Before version 0.2.5 it alone read a carried row with 0 copies.
#[deprecated(since = "0.2.5", note = "`row_read` reads every stored row")]
pub fn stored_row(blob: &[u8]) -> Option<HeldRow<'_>> {
    row_read(blob)
}

/// The held row of a blob, as the library read it.
fn held_row(row: Row, blob: &[u8]) -> Option<HeldRow<'_>> {
    let tag = Tag(row.tag);
    match row.kind {
        sys::KIND_CARRIED => Some(HeldRow::Carried {
            depositor: ContactId(row.depositor),
            envelope: Envelope {
                header: Header {
                    tag,
                    commitment: Commitment(row.second),
                    expiry_min: row.expiry_min,
                    copies: row.copies,
                },
                ciphertext: &blob[CARRIED_HEAD..],
            },
        }),
        sys::KIND_TOMBSTONE => Some(HeldRow::Tombstone {
            tag,
            secret: Secret(row.second),
            expiry_min: row.expiry_min,
        }),
        _ => None,
    }
}

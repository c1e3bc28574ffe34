//! The byte areas of a post.

use crate::{
    BadTag, CarriedRow, Contact, ContactId, Envelope, OwnRow, Refusal, Setting, Tag, Tombstone,
    calls,
    post::Counts,
    rows::{CarriedHead, Fields, Place},
};
use alloc::{boxed::Box, vec::Vec};
use core::{error, fmt};
use goosetable_sys::{self as sys, BAD_TAG_ROW, CELL, MAX_ROWS, NO_CELL, TOMBSTONE_ROW};

/// Where the device says how many own rows there are.
const OWN_COUNT: usize = 20;

/// The ciphertext lengths that an own envelope may have.
const OWN_LENGTHS: [usize; 7] = [48, 80, 144, 272, 528, 1040, 2064];

/// The rows of a table, as a post lists them.
pub(crate) trait Rows<T>: ExactSizeIterator<Item = T> + DoubleEndedIterator + Clone {}

impl<T, I: ExactSizeIterator<Item = T> + DoubleEndedIterator + Clone> Rows<T> for I {}

/// How much a post has room for; by default 256 cells of each kind, 1,024 tombstones, 64 bad tags. A later version
/// may ask for more: `Sizes { own_cells: 0, ..Sizes::default() }` holds in it too.
#[derive(Clone, Copy, Debug, PartialEq, Eq)]
pub struct Sizes {
    /// Envelopes of others, 256 at most. The share of a contact is promised for 256 alone: with fewer, calls
    /// are refused with [`Refusal::NoCell`](crate::Refusal::NoCell) where the code would be Accepted.
    pub carried_cells: usize,
    /// Own envelopes, 256 at most; 0 for a post that only carries.
    pub own_cells: usize,
    /// Tombstones: document 01's R. There are 1,024 at most, unless a loaded file or the areas of
    /// [`Post::over`](crate::Post::over) have more. With fewer rows, calls are refused with
    /// [`Refusal::NoTombstoneRow`](crate::Refusal::NoTombstoneRow) while all of them are used.
    pub tombstone_rows: usize,
    /// Tags of envelopes that could not be opened; 0 for a post that only carries.
    pub bad_tag_rows: usize,
}

impl Default for Sizes {
    /// 256 cells of each kind, 1,024 tombstones, 64 bad tags.
    fn default() -> Sizes {
        Sizes {
            carried_cells: MAX_ROWS,
            own_cells: MAX_ROWS,
            tombstone_rows: 1024,
            bad_tag_rows: 64,
        }
    }
}

/// Why there is no post of some [`Sizes`].
#[derive(Clone, Copy, Debug, PartialEq, Eq)]
#[non_exhaustive]
pub enum SizeError {
    /// So many cells for envelopes of others.
    CarriedCells(usize),
    /// So many cells for own envelopes.
    OwnCells(usize),
    /// The areas do not fit the memory.
    Memory,
}

impl fmt::Display for SizeError {
    fn fmt(&self, f: &mut fmt::Formatter<'_>) -> fmt::Result {
        match self {
            SizeError::CarriedCells(cells) => {
                write!(f, "{cells} carried cells: at most {MAX_ROWS} count")
            }
            SizeError::OwnCells(cells) => write!(f, "{cells} own cells: at most {MAX_ROWS} count"),
            SizeError::Memory => f.write_str("the areas do not fit the memory"),
        }
    }
}

impl error::Error for SizeError {}

/// Zeros for so many rows of a width.
pub(crate) fn zeros(count: usize, width: usize) -> Result<Box<[u8]>, SizeError> {
    let bytes = count.checked_mul(width).ok_or(SizeError::Memory)?;
    let mut area = Vec::new();
    area.try_reserve_exact(bytes)
        .map_err(|_| SizeError::Memory)?;
    area.resize(bytes, 0);
    Ok(area.into_boxed_slice())
}

/// Zeros for a table of fixed size.
fn table<const N: usize>() -> Result<Box<[u8; N]>, SizeError> {
    zeros(N, 1)?.try_into().map_err(|_| SizeError::Memory)
}

/// All that a post has, as bytes. A host may store them as they are, all of one moment between two calls, and make
/// the post again with [`Post::over`](crate::Post::over): [`fresh`](Areas::fresh) areas of the same sizes, each of
/// their [`parts_mut`](Areas::parts_mut) filled with what [`parts`](Areas::parts) had.
///
/// Any bytes and any lengths will do. A count above what fits is what fits. The first 256 cells of each kind count:
/// a row of another cell, which no call makes, has no byte of ciphertext.
#[derive(Clone, PartialEq, Eq)]
#[non_exhaustive]
pub struct Areas {
    /// The setting, the clock, how many rows each table has, and the next slot.
    pub device: [u8; sys::DEVICE],
    /// Contacts.
    pub contacts: Box<[u8; sys::CONTACTS]>,
    /// Own rows.
    pub own: Box<[u8; sys::OWN]>,
    /// Carried rows.
    pub carried: Box<[u8; sys::CARRIED]>,
    /// Tombstone rows.
    pub tombstones: Box<[u8]>,
    /// Bad-tag rows.
    pub bad_tags: Box<[u8]>,
    /// The ciphertexts of own rows.
    pub own_cells: Box<[u8]>,
    /// The ciphertexts of carried rows.
    pub carried_cells: Box<[u8]>,
}

impl Areas {
    /// The areas of a new post: no row, contact or bad tag, clock and next slot 0, the default setting.
    ///
    /// # Errors
    ///
    /// Over 256 cells of a kind, or areas that do not fit the memory.
    pub fn fresh(sizes: Sizes) -> Result<Areas, SizeError> {
        if MAX_ROWS < sizes.carried_cells {
            return Err(SizeError::CarriedCells(sizes.carried_cells));
        }
        if MAX_ROWS < sizes.own_cells {
            return Err(SizeError::OwnCells(sizes.own_cells));
        }
        Ok(Areas {
            device: calls::fresh(),
            contacts: table()?,
            own: table()?,
            carried: table()?,
            tombstones: zeros(sizes.tombstone_rows, TOMBSTONE_ROW)?,
            bad_tags: zeros(sizes.bad_tag_rows, BAD_TAG_ROW)?,
            own_cells: zeros(sizes.own_cells, CELL)?,
            carried_cells: zeros(sizes.carried_cells, CELL)?,
        })
    }

    /// Every area, in an order that stays; a later version may add areas at the end. Contacts, own rows, held rows,
    /// bad tags, setting, clock and next slot are in them; exchanges and the window are not.
    pub fn parts(&self) -> impl ExactSizeIterator<Item = &[u8]> {
        let parts: [&[u8]; 8] = [
            &self.device,
            &*self.contacts,
            &*self.own,
            &*self.carried,
            &self.tombstones,
            &self.bad_tags,
            &self.own_cells,
            &self.carried_cells,
        ];
        parts.into_iter()
    }

    /// Every area in the same order, to be filled with what was stored.
    pub fn parts_mut(&mut self) -> impl ExactSizeIterator<Item = &mut [u8]> {
        let parts: [&mut [u8]; 8] = [
            &mut self.device,
            &mut *self.contacts,
            &mut *self.own,
            &mut *self.carried,
            &mut self.tombstones,
            &mut self.bad_tags,
            &mut self.own_cells,
            &mut self.carried_cells,
        ];
        parts.into_iter()
    }

    /// What the areas have room for.
    pub fn sizes(&self) -> Sizes {
        Sizes {
            carried_cells: MAX_ROWS.min(self.carried_cells.len() / CELL),
            own_cells: MAX_ROWS.min(self.own_cells.len() / CELL),
            tombstone_rows: self.tombstones.len() / TOMBSTONE_ROW,
            bad_tag_rows: self.bad_tags.len() / BAD_TAG_ROW,
        }
    }

    /// The areas to be read, for a call.
    pub(crate) fn tables(&self) -> sys::Tables<'_> {
        sys::Tables {
            device: &self.device,
            contacts: &self.contacts,
            own: &self.own,
            carried: &self.carried,
            tombstones: &self.tombstones,
            bad_tags: &self.bad_tags,
            own_cells: &self.own_cells,
            carried_cells: &self.carried_cells,
        }
    }

    /// The device's fields from a place on.
    fn device_at(&self, at: usize) -> Fields<'_> {
        Fields(&self.device[at..])
    }

    pub(crate) fn setting(&self) -> Setting {
        let mut fields = self.device_at(0);
        Setting {
            enabled: fields.u8() != 0,
            copies: fields.u8(),
            lifetime_min: fields.u16(),
        }
    }

    pub(crate) fn clock(&self) -> u64 {
        self.device_at(4).u64()
    }

    pub(crate) fn next_slot(&self) -> u64 {
        self.device_at(52).u64()
    }

    pub(crate) fn counts(&self) -> Counts {
        let sizes = self.sizes();
        let mut fields = self.device_at(12);
        let mut fit = |room: usize| usize::try_from(fields.u64()).map_or(room, |n| n.min(room));
        Counts {
            contacts: fit(MAX_ROWS),
            own: fit(MAX_ROWS),
            carried: fit(MAX_ROWS),
            tombstones: fit(sizes.tombstone_rows),
            bad_tags: fit(sizes.bad_tag_rows),
        }
    }

    pub(crate) fn contacts(&self) -> impl Rows<Contact> {
        let (rows, _) = self.contacts.as_chunks();
        rows[..self.counts().contacts].iter().map(Contact::read)
    }

    pub(crate) fn own_rows(&self) -> impl Rows<OwnRow> {
        let (rows, _) = self.own.as_chunks();
        rows[..self.counts().own].iter().map(OwnRow::from_bytes)
    }

    fn carried_heads(&self) -> impl Rows<CarriedHead> {
        let (rows, _) = self.carried.as_chunks();
        rows[..self.counts().carried].iter().map(CarriedHead::read)
    }

    pub(crate) fn carried(&self) -> impl Rows<CarriedRow<'_>> {
        self.carried_heads().map(|head| CarriedRow {
            slot: head.slot,
            depositor: head.depositor,
            envelope: Envelope {
                header: head.header,
                ciphertext: part(&self.carried_cells, head.place),
            },
        })
    }

    pub(crate) fn tombstones(&self) -> impl Rows<Tombstone> {
        let (rows, _) = self.tombstones.as_chunks();
        rows[..self.counts().tombstones].iter().map(Tombstone::read)
    }

    pub(crate) fn bad_tags(&self) -> impl Rows<BadTag> {
        let (rows, _) = self.bad_tags.as_chunks();
        rows[..self.counts().bad_tags].iter().map(BadTag::read)
    }

    pub(crate) fn own_ciphertext(&self, row: &OwnRow) -> &[u8] {
        part(&self.own_cells, row.place)
    }

    /// The first bytes of a cell as a reply names it: own cells from 0, carried ones from 256, and nothing in [`NO_CELL`].
    pub(crate) fn ciphertext(&self, cell: u16, len: usize) -> &[u8] {
        if cell == NO_CELL {
            return &[];
        }
        let cell = usize::from(cell);
        match cell.checked_sub(MAX_ROWS) {
            Some(carried) => cell_part(&self.carried_cells, carried, len),
            None => cell_part(&self.own_cells, cell, len),
        }
    }

    /// The length of the ciphertext in a cell as a reply names it: what the row with the tag says that names the cell.
    pub(crate) fn ciphertext_len(&self, cell: u16, tag: Tag) -> usize {
        let mut owns = self.own_rows().map(|row| (row.tag, row.place));
        let mut carries = self
            .carried_heads()
            .map(|head| (head.header.tag, head.place));
        let found = match usize::from(cell).checked_sub(MAX_ROWS) {
            Some(n) => carries.find(|(t, place)| *t == tag && usize::from(place.cell) == n),
            None => owns.find(|(t, place)| *t == tag && place.cell == cell),
        };
        found.map_or(0, |(_, place)| usize::from(place.len))
    }

    /// Puts an own row back as it was stored: in its place by contact as added and message number, with a cell that
    /// is free.
    pub(crate) fn restore_own_row(
        &mut self,
        row: OwnRow,
        ciphertext: &[u8],
    ) -> Result<(), Refusal> {
        let known = self.contacts().any(|contact| contact.id == row.contact);
        if !known {
            return Err(Refusal::UnknownContact);
        }
        let count = self.own_rows().len();
        let at = self.own_place(row.contact, row.message)?;
        if !OWN_LENGTHS.contains(&ciphertext.len()) || row.ciphertext_len() != ciphertext.len() {
            return Err(Refusal::OwnLength);
        }
        let cell = self.free_own_cell().ok_or(Refusal::NoCell)?;
        self.own_cells[usize::from(cell) * CELL..][..ciphertext.len()].copy_from_slice(ciphertext);
        let (rows, _) = self.own.as_chunks_mut();
        rows[at..=count].rotate_right(1);
        rows[at] = row.in_cell(cell).to_bytes();
        self.device[OWN_COUNT..][..8].copy_from_slice(&(count as u64 + 1).to_be_bytes());
        Ok(())
    }

    /// Where the row of a message belongs, unless its number is taken.
    fn own_place(&self, contact: ContactId, message: u32) -> Result<usize, Refusal> {
        let key = |contact, message| {
            let added = self.contacts().position(|known| known.id == contact);
            (added, message)
        };
        let wanted = key(contact, message);
        let mut keys = self.own_rows().map(|row| key(row.contact, row.message));
        match keys.clone().any(|key| key == wanted) {
            true => Err(Refusal::MessageNumberTaken),
            false => Ok(keys
                .position(|key| wanted < key)
                .unwrap_or(self.own_rows().len())),
        }
    }

    /// The first own cell that no row names, if a row more fits the table.
    fn free_own_cell(&self) -> Option<u16> {
        let room = self.own_rows().len() < MAX_ROWS;
        let names = |cell: u16| self.own_rows().any(|row| row.place.cell == cell);
        let mut cells = (0..self.sizes().own_cells).filter_map(|cell| u16::try_from(cell).ok());
        cells.find(|cell| room && !names(*cell))
    }
}

impl fmt::Debug for Areas {
    fn fmt(&self, f: &mut fmt::Formatter<'_>) -> fmt::Result {
        f.debug_struct("Areas")
            .field("sizes", &self.sizes())
            .field("counts", &self.counts())
            .finish_non_exhaustive()
    }
}

/// The part of some cells in which a row's ciphertext lies. The first 256 cells count.
fn part(cells: &[u8], place: Place) -> &[u8] {
    match usize::from(place.cell) {
        cell @ ..MAX_ROWS => cell_part(cells, cell, usize::from(place.len)),
        _ => &[],
    }
}

/// The first bytes of a cell, as many of them as are there.
fn cell_part(cells: &[u8], cell: usize, len: usize) -> &[u8] {
    let part = cells.get(cell * CELL..).unwrap_or_default();
    &part[..len.min(CELL).min(part.len())]
}

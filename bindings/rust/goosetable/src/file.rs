//! A saved file made of stored rows.

use crate::{
    HeldRow, Post, Refusal, Slot, row_read,
    rows::{Fields, Typed},
};
use alloc::vec::Vec;
use core::{error, fmt};

/// The marks before the next slot, a carried row and a tombstone.
const NEXT: &[u8; 2] = b"HN";
const CARRIED: &[u8; 2] = b"HC";
const TOMBSTONE: &[u8; 2] = b"HT";

/// Bytes of a record before its blob: mark, slot, length.
const RECORD_HEAD: usize = 12;

/// Bytes of the record of the next slot.
const FILE_HEAD: usize = 10;

/// A blob that is of no held row: what was stored is damaged.
#[derive(Clone, Copy, Debug, PartialEq, Eq)]
#[non_exhaustive]
pub struct NoRow;

impl fmt::Display for NoRow {
    fn fmt(&self, f: &mut fmt::Formatter<'_>) -> fmt::Result {
        f.write_str("the blob is of no held row")
    }
}

impl error::Error for NoRow {}

/// The saved file of the rows that a host stored by [actions](crate::Action), for [`Post::load`](crate::Post::load)
/// after power was lost. Rows are pushed by rising slot, which is the quickest to load, and stand in it as they were
/// stored.
///
/// ```
/// use goosetable::{Post, SavedFile, Sizes, Slot};
/// use std::collections::BTreeMap;
///
/// # fn main() -> Result<(), Box<dyn std::error::Error>> {
/// # let stored: BTreeMap<Slot, Vec<u8>> = BTreeMap::new();
/// # let mut post = Post::new(Sizes::default())?;
/// let mut file = SavedFile::new();
/// for (slot, blob) in &stored {
///     if let Err(damaged) = file.push(*slot, blob) {
///         eprintln!("slot {slot}: {damaged}");
///     }
/// }
/// for (slot, refusal) in file.load_good(&mut post)? {
///     eprintln!("slot {slot}: {refusal}");
/// }
/// # Ok(())
/// # }
/// ```
#[derive(Clone, PartialEq, Eq)]
pub struct SavedFile {
    bytes: Vec<u8>,
}

impl SavedFile {
    /// The file of no row, with next slot 0.
    pub fn new() -> SavedFile {
        let mut bytes = NEXT.to_vec();
        bytes.extend([0; 8]);
        SavedFile { bytes }
    }

    /// The file that [`Post::save`](crate::Post::save) wrote, as it is. None if it does not begin with the next slot;
    /// whatever else is wrong with it stays, for a load to refuse.
    pub fn from_bytes(saved: &[u8]) -> Option<SavedFile> {
        let (head, _) = saved.split_at_checked(FILE_HEAD)?;
        head.starts_with(NEXT).then(|| SavedFile {
            bytes: saved.to_vec(),
        })
    }

    /// Adds the row that was stored under a slot. The next slot is above it from then on, also if the row is left out:
    /// a slot with anything stored under it is not given again. Call [`set_next_slot`](SavedFile::set_next_slot) for
    /// what is stored and not pushed, as with a wrong checksum.
    ///
    /// # Errors
    ///
    /// The blob is of no row: it is left out.
    pub fn push(&mut self, slot: Slot, blob: &[u8]) -> Result<(), NoRow> {
        self.set_next_slot(Slot(slot.0.saturating_add(1)));
        let mark = match row_read(blob).ok_or(NoRow)? {
            HeldRow::Carried { .. } => CARRIED,
            HeldRow::Tombstone { .. } => TOMBSTONE,
        };
        let len = u16::try_from(blob.len()).map_err(|_| NoRow)?;
        self.bytes.extend(mark);
        self.bytes.extend(slot.0.to_be_bytes());
        self.bytes.extend(len.to_be_bytes());
        self.bytes.extend(blob);
        Ok(())
    }

    /// Loads what is good, and answers what was left out, each slot with the number that refused it: 8 as at
    /// [`Post::load`], 4 and 5 where cells or tombstone rows are all used (then the last of the file, whatever their
    /// expiry). Of two that exclude each other the first stays. The next slot is the file's, above every slot that was pushed. If a load of the whole file is refused,
    /// the rows are tried one by one, in a time that grows with their square.
    ///
    /// # Errors
    ///
    /// The post stays as it is.
    ///
    /// - 8 [`SavedFile`](Refusal::SavedFile): the file is not whole records. One that was pushed always is.
    pub fn load_good(&self, post: &mut Post) -> Result<Vec<(Slot, Refusal)>, Refusal> {
        let records = self.records().ok_or(Refusal::SavedFile)?;
        match post.load(self.as_bytes()) {
            Ok(()) => Ok(Vec::new()),
            Err(_) => load_one_by_one(post, self.next_slot(), &records),
        }
    }

    /// Its records, if there is nothing else.
    fn records(&self) -> Option<Vec<&[u8]>> {
        let mut records = Vec::new();
        let mut rest = &self.bytes[FILE_HEAD..];
        while !rest.is_empty() {
            let (head, _) = rest.split_at_checked(RECORD_HEAD)?;
            let (record, after) = rest.split_at_checked(RECORD_HEAD + blob_len(head))?;
            records.push(record);
            rest = after;
        }
        Some(records)
    }

    /// Raises the next slot: above what is stored and was not pushed, or to the one that a host stored. It is above
    /// every pushed slot as it is.
    pub fn set_next_slot(&mut self, next: Slot) {
        let next = next.max(self.next_slot());
        self.bytes[NEXT.len()..][..8].copy_from_slice(&next.0.to_be_bytes());
    }

    /// The slot that the first new row gets after a load.
    pub fn next_slot(&self) -> Slot {
        Fields(&self.bytes[NEXT.len()..]).slot()
    }

    /// The file.
    pub fn as_bytes(&self) -> &[u8] {
        &self.bytes
    }
}

/// The slot of a record.
fn slot_of(record: &[u8]) -> Slot {
    Fields(&record[NEXT.len()..]).slot()
}

/// The length of the blob behind a record's head.
fn blob_len(head: &[u8]) -> usize {
    usize::from(Fields(&head[10..]).u16())
}

/// Loads the records that a load takes with those before them, and answers the others.
fn load_one_by_one(
    post: &mut Post,
    next: Slot,
    records: &[&[u8]],
) -> Result<Vec<(Slot, Refusal)>, Refusal> {
    let mut good = SavedFile::new();
    good.set_next_slot(next);
    post.load(good.as_bytes())?;
    let mut left_out = Vec::new();
    for record in records {
        let so_far = good.bytes.len();
        good.bytes.extend(*record);
        if let Err(refusal) = post.load(good.as_bytes()) {
            good.bytes.truncate(so_far);
            left_out.push((slot_of(record), refusal));
        }
    }
    Ok(left_out)
}

impl Default for SavedFile {
    fn default() -> SavedFile {
        SavedFile::new()
    }
}

impl fmt::Debug for SavedFile {
    fn fmt(&self, f: &mut fmt::Formatter<'_>) -> fmt::Result {
        write!(f, "SavedFile({} bytes)", self.bytes.len())
    }
}

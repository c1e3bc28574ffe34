//! Carried rows with 0 copies, on areas that no call left: what a save of them writes, and a load of it.

use super::reach::Met;
use crate::generate::Rng;
use lent::{Areas, Carried, Device, Outcome, Row, Said, cell_count, decoded, performed, table};
use post::{Call, FileRecord, HeldRow, Sizes};

/// About half of the carried rows have handed on their last copy.
pub fn spoil(areas: &mut Areas, rng: &mut Rng) {
    for bytes in areas.carried.chunks_exact_mut(Carried::WIDTH) {
        let mut row = Carried::read(bytes);
        if rng.percent(50) {
            row.copies = 0;
        }
        bytes.copy_from_slice(&row.write());
    }
}

/// Whether a save writes such a row.
fn is_there(areas: &Areas) -> bool {
    let rows: Vec<Carried> = table(&areas.carried, Device::read(&areas.device).carried);
    let mut saved = rows.iter().take(cell_count(&areas.carried_cells));
    saved.any(|row| row.copies == 0)
}

fn save(sizes: &Sizes) -> Call {
    Call::Save {
        areas: post::Areas::enough(sizes),
    }
}

/// A save of such a row, a read of its blob, or a load of what a save writes.
pub fn call_after_one(areas: &Areas, sizes: &Sizes, rng: &mut Rng) -> Option<Call> {
    if !is_there(areas) {
        return None;
    }
    let file = performed(&mut areas.clone(), &save(sizes)).bytes;
    let blobs = post::records(&file).unwrap_or_default().into_iter();
    let blobs: Vec<Vec<u8>> = blobs.filter_map(without_copies).collect();
    Some(match rng.below(4) {
        0 => save(sizes),
        1 if !blobs.is_empty() => Call::RowRead {
            blob: rng.pick(&blobs).into(),
        },
        _ => Call::Load { file: file.into() },
    })
}

/// The blob of a record, if it is of such a row.
fn without_copies(record: FileRecord) -> Option<Vec<u8>> {
    match record {
        FileRecord::Row(b'C', _, blob) if reference::raw::is_without_copies(&blob) => Some(blob),
        _ => None,
    }
}

/// The blobs of such rows that a call has; what is held before it.
pub struct Before {
    held: Vec<HeldRow>,
    is_there: bool,
    blobs: Vec<Vec<u8>>,
}

impl Before {
    /// If the call is a save, a load or a row read.
    pub fn of(areas: &Areas, call: &Call) -> Option<Self> {
        let records = match call {
            Call::Save { .. } => Vec::new(),
            Call::Load { file } => post::records(file).unwrap_or_default(),
            Call::RowRead { blob } => vec![FileRecord::Row(b'C', 0, blob.to_vec())],
            _ => return None,
        };
        Some(Self {
            held: decoded(areas).held,
            is_there: is_there(areas),
            blobs: records.into_iter().filter_map(without_copies).collect(),
        })
    }
}

const READ: &str = "a row read";
const UNREAD: &str = "a row read that finds none";
const SAVED: &str = "a save";
const LOADED: &str = "a load";
const AGAIN: &str = "a load of the rows there, which stay";
const EXPIRY_0: &str = "a load refused by 8 where one has expiry 0";
const REFUSED: &str = "a load refused by 8 where none has";

#[cfg(feature = "library")]
pub const ALL: [&str; 7] = [READ, UNREAD, SAVED, LOADED, AGAIN, EXPIRY_0, REFUSED];

impl Before {
    /// The areas are those after the call.
    pub fn met(&self, areas: &Areas, call: &Call, outcome: &Outcome) -> Met {
        let one = !self.blobs.is_empty();
        let dead = self.blobs.iter().any(|blob| blob[41..45] == [0; 4]);
        match (call, &outcome.said) {
            (Call::RowRead { .. }, Said::Row(Some(_))) => vec![(READ, one)],
            (Call::RowRead { .. }, _) => vec![(UNREAD, one)],
            (Call::Save { .. }, Said::Wrote(_)) => vec![(SAVED, self.is_there)],
            (Call::Load { .. }, Said::Done) => {
                let stay = decoded(areas).held == self.held;
                vec![(LOADED, one), (AGAIN, one && stay)]
            }
            (Call::Load { .. }, Said::Refused(8)) => vec![(EXPIRY_0, dead), (REFUSED, one && !dead)],
            _ => Vec::new(),
        }
    }
}

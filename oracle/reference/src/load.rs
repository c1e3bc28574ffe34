//! Save and load, which document 01 defines; the source reads each row.

use crate::Reference;
use crate::raw;
use post::{Bytes, FileRecord, Held, HeldRow, encode_file};
use std::collections::{BTreeMap, BTreeSet};

const CARRIED: usize = 256;
const FOR_ONE: usize = 32;

/// The next slot and the rows, or `None` where the file's shape or a row is wrong.
fn read(file: &[u8]) -> Option<(u64, Vec<HeldRow>)> {
    let mut records = post::records(file)?.into_iter();
    let Some(FileRecord::NextSlot(next)) = records.next() else {
        return None;
    };
    let mut rows = Vec::new();
    for record in records {
        let FileRecord::Row(kind, slot, blob) = record else {
            return None;
        };
        let held = raw::read_row(&blob)?;
        if held.is_carried() != (kind == b'C') {
            return None;
        }
        rows.push(HeldRow { slot, held });
    }
    Some((next, rows))
}

impl Reference {
    fn fits_together(&self, next: u64, rows: &[HeldRow]) -> bool {
        let slots: BTreeSet<u64> = rows.iter().map(|row| row.slot).collect();
        let mut tags = BTreeSet::new();
        let mut depositors: BTreeMap<u64, usize> = BTreeMap::new();
        for row in rows {
            if let Held::Carried { depositor, envelope } = &row.held {
                *depositors.entry(*depositor).or_default() += 1;
                if !tags.insert(envelope.tag) {
                    return false;
                }
            }
        }
        slots.len() == rows.len()
            && slots.last().is_none_or(|last| *last < next)
            && tags.len() <= CARRIED
            && depositors
                .iter()
                .all(|(id, count)| self.source.knows(*id) && *count <= FOR_ONE)
    }

    pub(crate) fn replace_held(&mut self, file: &[u8]) -> Result<(), u8> {
        let (next, rows) = read(file)
            .filter(|(next, rows)| self.fits_together(*next, rows))
            .ok_or(8)?;
        let carried = rows.iter().filter(|row| row.held.is_carried()).count();
        if carried > self.sizes.carried_cells {
            return Err(4);
        }
        if rows.len() - carried > self.sizes.tombstone_rows {
            return Err(5);
        }
        self.source.clear_held();
        for row in &rows {
            self.source.put_held(row.slot, &row.held);
        }
        self.source.set_next_slot(next);
        Ok(())
    }

    /// Rows by slot; document 01 leaves the order open.
    pub(crate) fn save(&self) -> Bytes {
        let mut records = vec![FileRecord::NextSlot(self.source.next_slot())];
        for row in self.source.state().held {
            let blob = self.source.blob(row.slot).expect("a held row");
            let kind = if row.held.is_carried() { b'C' } else { b'T' };
            records.push(FileRecord::Row(kind, row.slot, blob));
        }
        encode_file(&records)
    }
}

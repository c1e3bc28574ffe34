//! Row blobs, the saved file, and a load.

use crate::cell_count;
use crate::own::merged;
use crate::rows::{Carried, Tombstone};
use crate::state::{Change, Lent, Outcome, Said, State, Step, refused, said};
use post::{Bytes, Envelope, FileRecord, Held, array, encode_file};
use std::collections::BTreeSet;

const HEAD: usize = 46;

/// Held rows in their order, each kind by itself, and the ciphertexts of the carried ones in the first cells.
#[derive(Default)]
pub(crate) struct Laid {
    carried: Vec<Carried>,
    tombstones: Vec<Tombstone>,
    cells: Vec<(u16, Vec<u8>)>,
}

impl Laid {
    pub(crate) fn of(rows: impl IntoIterator<Item = (u64, Held)>) -> Self {
        let mut laid = Self::default();
        for (slot, held) in rows {
            match held {
                Held::Carried { depositor, envelope } => laid.carry(slot, depositor, envelope),
                Held::Tombstone { tag, secret, expiry } => laid.tombstones.push(Tombstone {
                    slot,
                    tag,
                    secret,
                    expiry,
                }),
            }
        }
        laid
    }

    fn carry(&mut self, slot: u64, depositor: u64, envelope: Envelope) {
        let cell = self.carried.len() as u16;
        self.carried.push(Carried {
            slot,
            depositor,
            tag: envelope.tag,
            commitment: envelope.commitment,
            expiry: envelope.expiry,
            copies: envelope.copies,
            len: envelope.ciphertext.len() as u16,
            cell,
        });
        self.cells.push((cell, envelope.ciphertext.0));
    }

    pub(crate) fn change(self) -> Change {
        Change {
            carried: Some(self.carried),
            tombstones: Some(self.tombstones),
            carried_cell: self.cells,
            ..Change::default()
        }
    }
}

/// What a blob says. Of a carried row the length of the ciphertext and the expiry decide whether it is read; how many copies are left does not.
pub fn read(blob: &[u8]) -> Option<Held> {
    match blob.first()? {
        0 if blob.len() >= HEAD => {
            let envelope = Envelope {
                tag: array(blob, 9),
                commitment: array(blob, 25),
                expiry: u32::from_be_bytes(array(blob, 41)),
                copies: blob[45],
                ciphertext: Bytes::from(&blob[HEAD..]),
            };
            let sized = [48, 80, 144, 272, 528, 1_040, 2_064].contains(&envelope.ciphertext.len());
            (sized && envelope.expiry > 0).then(|| Held::Carried {
                depositor: u64::from_be_bytes(array(blob, 1)),
                envelope,
            })
        }
        1 if blob.len() == 37 => Some(Held::Tombstone {
            tag: array(blob, 1),
            secret: array(blob, 17),
            expiry: u32::from_be_bytes(array(blob, 33)),
        }),
        _ => None,
    }
}

impl State<'_> {
    fn carried_record(&self, row: &Carried) -> FileRecord {
        let blob = [
            &[0][..],
            &row.depositor.to_be_bytes(),
            &row.tag,
            &row.commitment,
            &row.expiry.to_be_bytes(),
            &[row.copies],
            self.carried_ciphertext(row),
        ];
        FileRecord::Row(b'C', row.slot, blob.concat())
    }

    fn tombstone_record(&self, row: &Tombstone) -> FileRecord {
        let blob = [&[1][..], &row.tag, &row.secret, &row.expiry.to_be_bytes()];
        FileRecord::Row(b'T', row.slot, blob.concat())
    }

    pub fn row_blob(&self, lent: &Lent, slot: u64) -> Step {
        if lent.answer < 2_110 {
            return refused(1);
        }
        let carried = self.carried.iter().find(|row| row.slot == slot);
        let tombstone = self.tombstones.iter().find(|row| row.slot == slot);
        let record = carried
            .map(|row| self.carried_record(row))
            .or_else(|| tombstone.map(|row| self.tombstone_record(row)));
        match record {
            Some(FileRecord::Row(_, _, blob)) => (Outcome::wrote(blob.len(), blob), Change::default()),
            _ => said(Said::Missing),
        }
    }

    pub fn save(&self, lent: &Lent) -> Step {
        let cells = cell_count(self.carried_cells);
        if lent.answer < 10 + 2_122 * cells + 49 * self.tombstone_rows {
            return refused(1);
        }
        let slot = |record: &FileRecord| match record {
            FileRecord::Row(_, slot, _) | FileRecord::NextSlot(slot) => *slot,
        };
        let saved = |row: &&Carried| self.reading.is_saved(row.copies);
        let carried = self.carried.iter().take(cells).filter(saved);
        let carried = carried.map(|row| self.carried_record(row));
        let tombstones = self.tombstones.iter().map(|row| self.tombstone_record(row));
        let mut records = merged(carried.collect(), tombstones.collect(), slot);
        records.insert(0, FileRecord::NextSlot(self.next_slot));
        let file = encode_file(&records).0;
        (Outcome::wrote(file.len(), file), Change::default())
    }

    /// The next slot and the rows in the file's order, or nothing where number 8 refuses.
    fn readable(&self, file: &[u8]) -> Option<(u64, Vec<(u64, Held)>)> {
        let mut records = post::records(file)?.into_iter();
        let Some(FileRecord::NextSlot(next)) = records.next() else {
            return None;
        };
        let mut rows = Vec::new();
        let (mut slots, mut tags) = (BTreeSet::new(), BTreeSet::new());
        for record in records {
            let FileRecord::Row(kind, slot, blob) = record else {
                return None;
            };
            let held = read(&blob)?;
            if held.is_carried() != (kind == b'C') || slot >= next || !slots.insert(slot) {
                return None;
            }
            if let Held::Carried { depositor, envelope } = &held
                && (!tags.insert(envelope.tag) || !self.knows(*depositor) || !self.reading.is_loaded(envelope.copies))
            {
                return None;
            }
            rows.push((slot, held));
        }
        let deposited = |id: u64| {
            rows.iter()
                .filter(|(_, held)| matches!(held, Held::Carried { depositor, .. } if *depositor == id))
                .count()
        };
        let many = rows
            .iter()
            .any(|(_, held)| matches!(held, Held::Carried { depositor, .. } if deposited(*depositor) > 32));
        (tags.len() <= 256 && !many).then_some((next, rows))
    }

    /// A load replaces held rows and next slot; cells are given out from the first, in the file's order.
    pub fn load(&self, file: &[u8]) -> Step {
        let Some((next, rows)) = self.readable(file) else {
            return refused(8);
        };
        let mut laid = Laid::of(rows);
        if laid.carried.len() > cell_count(self.carried_cells) {
            return refused(4);
        }
        if laid.tombstones.len() > self.tombstone_rows {
            return refused(5);
        }
        laid.carried.sort_by_key(|row| row.slot);
        laid.tombstones.sort_by_key(|row| row.slot);
        let change = Change {
            next_slot: Some(next),
            ..laid.change()
        };
        (Outcome::only(Said::Done), change)
    }
}

//! Saved files and row blobs, whole and damaged.

use super::pool::secret_of;
use super::{Generator, Profile};
use post::{Bytes, Call, Envelope, FileRecord, Held, State, encode_file};
use reference::raw;

fn row(slot: u64, held: &Held) -> FileRecord {
    let kind = if held.is_carried() { b'C' } else { b'T' };
    FileRecord::Row(kind, slot, raw::blob(held))
}

/// Carried rows of lower numbers may have a tag of the pool.
const POOLED: u64 = 12;

impl Generator {
    fn carried(&mut self, depositor: u64, number: u64, end: u32) -> Held {
        let mut tag = [0xc0; 16];
        tag[8..].copy_from_slice(&number.to_be_bytes());
        if number < POOLED && self.rng.percent(30) {
            tag = self.pool.tags[number as usize];
        }
        Held::Carried {
            depositor,
            envelope: Envelope {
                tag,
                commitment: rules::commitment(&secret_of(&tag)),
                expiry: self.rng.pick(&[end, end, end + 1, u32::MAX]).max(1),
                copies: self.rng.pick(&[1, 2, 3, 4, 5, 6, 16, 255]),
                ciphertext: vec![self.rng.next() as u8; self.rng.pick(&[48, 48, 48, 80])].into(),
            },
        }
    }

    fn tombstone(&mut self, number: u64, end: u32) -> Held {
        let mut tag = [0xd0; 16];
        tag[8..].copy_from_slice(&number.to_be_bytes());
        if self.rng.percent(2) {
            tag = self.rng.pick(&self.pool.tags);
        }
        Held::Tombstone {
            tag,
            secret: secret_of(&tag),
            expiry: self.rng.pick(&[end, end, end + 1, end + 2, u32::MAX]),
        }
    }

    /// Rows of known depositors, `each` at most for one of them, and tombstones, in slots that rise with gaps.
    pub(super) fn held_rows(
        &mut self,
        state: &State,
        carried: usize,
        tombstones: usize,
        each: usize,
    ) -> Vec<FileRecord> {
        let end = self.minute(state).saturating_add(70).min(u32::MAX - 2);
        let mut slot = self.rng.below(3) as u64;
        let known: Vec<u64> = state.contacts.iter().map(|contact| contact.id).collect();
        // A row whose tag stands before it is left out; a full list has none.
        let first = if self.profile == Profile::Full { POOLED } else { 0 };
        let mut helds = Vec::new();
        for number in 0..carried {
            let Some(depositor) = known.get(number / each) else {
                break;
            };
            helds.push(self.carried(*depositor, first + number as u64, end));
        }
        // Around 1,024 tombstones the lowest slot is a carried row's.
        let front = usize::from(self.profile == Profile::Tombs && !helds.is_empty());
        for number in 0..tombstones {
            let held = self.tombstone(number as u64, end);
            let place = front + self.rng.below(helds.len() + 1 - front);
            helds.insert(place, held);
        }
        let mut tags: Vec<post::Tag> = Vec::new();
        let mut records = Vec::new();
        for held in helds {
            if held.is_carried() && tags.contains(held.tag()) {
                continue;
            }
            tags.push(*held.tag());
            slot += self.rng.between(1, 3) as u64;
            records.push(row(slot, &held));
        }
        records
    }

    fn next_after(&mut self, records: &[FileRecord]) -> u64 {
        let last = records.last().map_or(0, |record| match record {
            FileRecord::Row(_, slot, _) => *slot,
            FileRecord::NextSlot(slot) => *slot,
        });
        let near_the_end = self.profile == Profile::Slots;
        if near_the_end && self.rng.percent(80) {
            return u64::MAX - self.rng.below(3) as u64;
        }
        last.saturating_add(self.rng.pick(&[1, 1, 2, 40]))
    }

    /// How many rows of a kind for so many places: none, some, all, one too many.
    fn filling(&mut self, places: usize) -> usize {
        match self.rng.below(8) {
            0 => 0,
            1..4 => self.rng.below(places + 1),
            4..7 => places,
            _ => places + 1,
        }
    }

    pub(super) fn file(&mut self, state: &State) -> Bytes {
        let mut rows = if self.rng.percent(25) {
            state.held.iter().map(|held| row(held.slot, &held.held)).collect()
        } else {
            let carried = self.filling(self.sizes.carried_cells);
            let tombstones = self.filling(self.sizes.tombstone_rows.min(30));
            let each = self.rng.pick(&[16, 32, 32, 32, 33]);
            self.held_rows(state, carried, tombstones, each)
        };
        if self.rng.percent(20) {
            self.hand_on(&mut rows);
        }
        let next = self.next_after(&rows);
        if self.rng.percent(30) {
            let count = rows.len();
            for place in 0..count {
                let other = self.rng.below(count);
                rows.swap(place, other);
            }
        }
        rows.insert(0, FileRecord::NextSlot(next));
        if self.rng.percent(45) {
            self.damage_records(state, &mut rows);
        }
        let mut file = encode_file(&rows);
        if self.rng.percent(12) {
            self.damage_bytes(&mut file);
        }
        file
    }

    /// Some of the carried rows have handed on their last copy; now and then one of these has expiry 0.
    fn hand_on(&mut self, rows: &mut [FileRecord]) {
        let mut dead = self.rng.percent(6);
        for record in rows {
            if let FileRecord::Row(b'C', _, blob) = record
                && self.rng.percent(40)
            {
                blob[45] = 0;
                if std::mem::take(&mut dead) {
                    blob[41..45].fill(0);
                }
            }
        }
    }

    fn damage_records(&mut self, state: &State, rows: &mut Vec<FileRecord>) {
        let place = self.rng.below(rows.len());
        let other = self.rng.below(rows.len());
        match self.rng.below(8) {
            0 => rows.swap(0, place),
            1 => rows.insert(place, FileRecord::NextSlot(self.rng.below(99) as u64)),
            2 => {
                rows.remove(place);
            }
            3 => rows.push(rows[place].clone()),
            4 => self.move_slot(rows, place, other),
            5 => self.damage_row(rows, place),
            6 => self.same_tag_again(rows, place),
            _ => {
                let stranger = self.contact();
                let end = self.minute(state).saturating_add(9).min(u32::MAX - 2);
                let number = self.rng.next();
                let held = self.carried(stranger, number, end);
                rows.push(row(self.rng.below(200) as u64, &held));
            }
        }
    }

    /// A slot that another row has, the next slot, or one above it.
    fn move_slot(&mut self, rows: &mut [FileRecord], place: usize, other: usize) {
        let to = match rows[other] {
            FileRecord::NextSlot(next) => next.saturating_add(self.rng.below(2) as u64),
            FileRecord::Row(_, slot, _) => slot,
        };
        if let FileRecord::Row(_, slot, _) = &mut rows[place] {
            *slot = to;
        }
    }

    fn damage_row(&mut self, rows: &mut [FileRecord], place: usize) {
        if let FileRecord::Row(kind, _, blob) = &mut rows[place] {
            if self.rng.percent(30) {
                *kind = if *kind == b'C' { b'T' } else { b'C' };
            } else {
                let mut bytes = Bytes::from(&blob[..]);
                self.damage_blob(&mut bytes);
                *blob = bytes.0;
            }
        }
    }

    /// The row of one slot in another slot too: fine for a tombstone, not for a carried row.
    fn same_tag_again(&mut self, rows: &mut Vec<FileRecord>, place: usize) {
        let FileRecord::Row(kind, slot, blob) = rows[place].clone() else {
            return;
        };
        rows.push(FileRecord::Row(kind, slot.wrapping_sub(1), blob));
    }

    fn damage_bytes(&mut self, file: &mut Bytes) {
        let shorter = self.rng.below(file.len() + 1);
        match self.rng.below(5) {
            0 => file.truncate(shorter),
            1 => file.extend_from_slice(&[b'H'; 3][..self.rng.between(1, 3)]),
            2 => file.clear(),
            3 => file.extend_from_slice(b"HX\0\0\0\0\0\0\0\0\0\0"),
            _ => {
                if !file.is_empty() {
                    let place = self.rng.below(file.len().min(64));
                    file[place] ^= 1 << self.rng.below(8);
                }
            }
        }
    }

    pub(super) fn damage_blob(&mut self, blob: &mut Bytes) {
        let carried = blob.first() == Some(&0) && blob.len() >= 46;
        let shorter = self.rng.below(blob.len() + 1);
        match self.rng.below(9) {
            0 => blob.truncate(shorter),
            1 => blob.push(0),
            2 => {
                blob.pop();
            }
            3 if !blob.is_empty() => blob[0] = self.rng.pick(&[0, 1, 2, 255]),
            4 if carried => {
                blob[45] = 0;
                if self.rng.percent(20) {
                    blob.push(0);
                }
            }
            5 if carried => {
                blob[41..45].copy_from_slice(&self.rng.pick(&[[0; 4], [0, 0, 0, 1]]));
                if self.rng.percent(30) {
                    blob[45] = 0;
                }
            }
            6 if carried => blob[1..9].fill(0xff),
            7 if blob.len() == 37 => blob[33..37].fill(0),
            _ => blob.extend_from_slice(&[0; 16]),
        }
    }

    pub(super) fn row_read(&mut self, state: &State) -> Call {
        let held = match self.rng.below(3) {
            0 if !state.held.is_empty() => {
                let place = self.rng.below(state.held.len());
                state.held[place].held.clone()
            }
            1 => self.tombstone(7, 100),
            _ => self.carried(5, 8, 100),
        };
        let mut blob = Bytes::from(raw::blob(&held));
        if self.rng.percent(60) {
            self.damage_blob(&mut blob);
        }
        Call::RowRead { blob }
    }
}

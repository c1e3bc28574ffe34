//! Row blobs and the saved file.

use crate::{Rules, Wrong};
use post::{Answer, Bytes, Envelope, Held, HeldRow, array};

const CARRIED_SIZES: [usize; 7] = [48, 80, 144, 272, 528, 1040, 2064];
const HEAD: usize = 1 + 8 + 37;
const TOMBSTONE: usize = 1 + 16 + 16 + 4;

fn blob_of(held: &Held) -> Vec<u8> {
    match held {
        Held::Carried { depositor, envelope } => [
            &[0][..],
            &depositor.to_be_bytes(),
            &envelope.tag,
            &envelope.commitment,
            &envelope.expiry.to_be_bytes(),
            &[envelope.copies],
            &envelope.ciphertext,
        ]
        .concat(),
        Held::Tombstone { tag, secret, expiry } => [&[1][..], tag, secret, &expiry.to_be_bytes()].concat(),
    }
}

fn is_without_copies(row: &HeldRow) -> bool {
    matches!(&row.held, Held::Carried { envelope, .. } if envelope.copies == 0)
}

impl Rules {
    pub(crate) fn row_blob(&self, slot: u64) -> Answer {
        let row = self.state.held.iter().find(|row| row.slot == slot);
        Answer::Blob(row.map(|row| blob_of(&row.held).into()))
    }

    /// A carried row is read only with one of seven lengths and an expiry above 0. Its copies may be any number, 0 too.
    fn read_carried(&self, blob: &[u8]) -> Option<Held> {
        let mut envelope = Envelope {
            tag: array(blob, 9),
            commitment: array(blob, 25),
            expiry: u32::from_be_bytes(array(blob, 41)),
            copies: blob[45],
            ciphertext: Bytes::from(&blob[HEAD..]),
        };
        let empty = envelope.copies == 0;
        let sized = CARRIED_SIZES.contains(&envelope.ciphertext.len());
        let least = self.unless(Wrong::RefusesRowsOfExpiry1, 1, 2);
        let any = self.is(Wrong::ReadsRowsOfExpiry0) || (empty && self.is(Wrong::ReadsAnyExpiryWithoutCopies));
        if empty && self.is(Wrong::ReadsNoCopiesAsOne) {
            envelope.copies = 1;
        }
        let refused = empty && self.is(Wrong::RefusesRowsWithoutCopies);
        (sized && !refused && (any || envelope.expiry >= least)).then(|| Held::Carried {
            depositor: u64::from_be_bytes(array(blob, 1)),
            envelope,
        })
    }

    pub(crate) fn read_row(&self, blob: &[u8]) -> Option<Held> {
        match blob.first()? {
            0 if blob.len() >= HEAD => self.read_carried(blob),
            1 if blob.len() == TOMBSTONE || (blob.len() > TOMBSTONE && self.is(Wrong::ReadsLongTombstones)) => {
                let expiry = u32::from_be_bytes(array(blob, 33));
                let dead = expiry == 0 && self.is(Wrong::TombstoneNeedsAnExpiry);
                (!dead).then(|| Held::Tombstone {
                    tag: array(blob, 1),
                    secret: array(blob, 17),
                    expiry,
                })
            }
            _ => None,
        }
    }

    pub(crate) fn save(&self) -> Answer {
        let mut file = [b"HN".to_vec(), self.state.next_slot.to_be_bytes().to_vec()].concat();
        for row in &self.state.held {
            if self.is(Wrong::SavesNoRowsWithoutCopies) && is_without_copies(row) {
                continue;
            }
            let blob = blob_of(&row.held);
            file.extend_from_slice(if row.held.is_carried() { b"HC" } else { b"HT" });
            file.extend_from_slice(&row.slot.to_be_bytes());
            file.extend_from_slice(&(blob.len() as u16).to_be_bytes());
            file.extend_from_slice(&blob);
        }
        Answer::Saved(file.into())
    }

    /// The row that starts here, and what follows it.
    fn one_row<'a>(&self, file: &'a [u8]) -> Option<(HeldRow, &'a [u8])> {
        let mark = file.get(..2)?;
        let slot = u64::from_be_bytes(file.get(2..10)?.try_into().ok()?);
        let length = usize::from(u16::from_be_bytes(file.get(10..12)?.try_into().ok()?));
        let held = self.read_row(file.get(12..12 + length)?)?;
        let right = match mark {
            b"HC" => held.is_carried(),
            b"HT" => !held.is_carried(),
            _ => return None,
        };
        let lax = self.is(Wrong::MarkNeedNotFitTheRow);
        (right || lax).then(|| (HeldRow { slot, held }, &file[12 + length..]))
    }

    fn next_and_rows(&self, file: &[u8]) -> Option<(u64, Vec<HeldRow>)> {
        if file.is_empty() && self.is(Wrong::EmptyFileIsEmptyHoldings) {
            return Some((0, Vec::new()));
        }
        let b"HN" = file.get(..2)? else {
            return None;
        };
        let next = u64::from_be_bytes(file.get(2..10)?.try_into().ok()?);
        let mut rest = &file[10..];
        let mut rows = Vec::new();
        while !rest.is_empty() {
            if self.is(Wrong::SecondNextSlotIsFine) && rest.starts_with(b"HN") && rest.len() >= 10 {
                rest = &rest[10..];
                continue;
            }
            let Some((row, after)) = self.one_row(rest) else {
                let short = rest.len() < 12 && self.is(Wrong::TrailingBytesAreFine);
                return short.then_some((next, rows));
            };
            rows.push(row);
            rest = after;
        }
        Some((next, rows))
    }

    fn loadable(&self, next: u64, rows: &[HeldRow]) -> bool {
        let carried: Vec<(u64, &Envelope)> = rows
            .iter()
            .filter_map(|row| match &row.held {
                Held::Carried { depositor, envelope } => Some((*depositor, envelope)),
                Held::Tombstone { .. } => None,
            })
            .collect();
        let below = |slot: u64| slot < next || (self.is(Wrong::SlotMayBeTheNextSlot) && slot == next);
        let slots = rows.iter().enumerate().all(|(place, row)| {
            let twice = rows[..place].iter().any(|other| other.slot == row.slot);
            below(row.slot) && (!twice || self.is(Wrong::SlotMayStandTwice))
        });
        let depositors = carried.iter().enumerate().all(|(place, (id, envelope))| {
            let from_same = carried.iter().filter(|(other, _)| other == id).count();
            let twice = carried[..place].iter().any(|(_, other)| other.tag == envelope.tag);
            let empty = envelope.copies == 0;
            let lax = self.is(Wrong::LoadsUnknownDepositors)
                || (empty && self.is(Wrong::LoadsUnknownDepositorsWithoutCopies));
            let is_of_its_tag = |row: &HeldRow| !row.held.is_carried() && *row.held.tag() == envelope.tag;
            let tombstoned = empty && self.is(Wrong::RefusesTombstonedWithoutCopies) && rows.iter().any(is_of_its_tag);
            (self.knows(*id) || lax)
                && !tombstoned
                && from_same <= self.unless(Wrong::Loads33ForOne, 32, 33)
                && (!twice || self.is(Wrong::LoadsATagTwice))
        });
        slots && depositors && carried.len() <= self.unless(Wrong::Loads257Carried, 256, 257)
    }

    /// The file's next slot and rows, or `None` where 8 applies.
    pub(crate) fn readable(&self, file: &[u8]) -> Option<(u64, Vec<HeldRow>)> {
        self.next_and_rows(file)
            .filter(|(next, rows)| self.loadable(*next, rows))
    }

    pub(crate) fn load(&mut self, file: &[u8]) -> Answer {
        let (next, mut rows) = self.readable(file).expect("8 has been tested");
        if self.is(Wrong::LoadAddsToTheRows) {
            let kept = self
                .state
                .held
                .iter()
                .filter(|row| !rows.iter().any(|new| new.slot == row.slot));
            rows.extend(kept.cloned().collect::<Vec<_>>());
        }
        if self.is(Wrong::LoadLeavesOutRowsWithoutCopies) {
            rows.retain(|row| !is_without_copies(row));
        }
        rows.sort_by_key(|row| row.slot);
        rows.dedup_by_key(|row| row.slot);
        let after_last = rows.last().map_or(0, |row| row.slot.saturating_add(1));
        self.state.next_slot = self.unless(Wrong::NextSlotAfterTheLast, next, after_last);
        self.state.held = rows;
        if self.is(Wrong::LoadClosesExchanges) {
            self.state.exchanges.fill(Default::default());
        }
        if self.is(Wrong::LoadForgetsBadTags) {
            self.state.bad.clear();
        }
        Answer::nothing()
    }
}

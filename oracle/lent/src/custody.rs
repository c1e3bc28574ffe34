//! The window, and an envelope that arrives.

use crate::cell_count;
use crate::rows::Carried;
use crate::settings::{custody_reply, put};
use crate::state::{Change, Lent, Outcome, Said, State, Step, refused, said};
use post::{ChainRow, Custody, Envelope, SkippedRow, Tag, WindowRow};

pub const LAST_SLOT: u64 = u64::MAX;

/// The bytes that a carried envelope has before its ciphertext.
const HEADER: usize = 37;

pub fn window_rows(window: &[u8]) -> Vec<WindowRow> {
    window.chunks_exact(WindowRow::WIDTH).map(WindowRow::read).collect()
}

fn is_dir(byte: u8) -> bool {
    matches!(byte, b'I' | b'R')
}

pub fn wrong_window(window: &[u8]) -> bool {
    let rows = window_rows(window);
    !window.len().is_multiple_of(WindowRow::WIDTH)
        || rows.iter().any(|row| !is_dir(row.dir))
        || !rows.is_sorted_by(|one, two| one.key() < two.key())
}

/// The first cell that no row names.
pub fn free_cell(cells: &[u8], named: impl Iterator<Item = u16>) -> Option<u16> {
    let mut used = [false; 256];
    for cell in named {
        if let Some(used) = used.get_mut(usize::from(cell)) {
            *used = true;
        }
    }
    (0..cell_count(cells)).find(|cell| !used[*cell]).map(|cell| cell as u16)
}

impl State<'_> {
    pub fn strangers(&self, peer: u64, window: &[u8]) -> bool {
        !self.knows(peer) || window_rows(window).iter().any(|row| !self.knows(row.contact))
    }

    fn verified(&self, peer: u64) -> bool {
        let row = self.contacts.iter().find(|row| row.id == peer);
        row.is_some_and(|row| row.verification == 1)
    }

    fn duplicate(&self, tag: &Tag) -> bool {
        self.own.iter().any(|row| row.tag == *tag)
            || self.carried.iter().any(|row| row.tag == *tag)
            || self.tombstones.iter().any(|row| row.tag == *tag)
    }

    fn full(&self, peer: u64, length: usize) -> bool {
        let size = |row: &Carried| HEADER + self.carried_ciphertext(row).len();
        let bytes: usize = self.carried.iter().map(size).sum();
        let deposited = self.carried.iter().filter(|row| row.depositor == peer).count();
        let quota = if self.verified(peer) { 32 } else { 16 };
        self.carried.len() >= 256 || bytes + HEADER + length > 1_048_576 || deposited >= quota
    }

    fn code(&self, peer: u64, envelope: &Envelope) -> Custody {
        let length = envelope.ciphertext.len();
        let sized = [48, 80, 144, 272, 528, 1_040, 2_064].contains(&length);
        let valid = sized && envelope.copies > 0 && envelope.expiry > self.minute();
        if !self.setting.enabled {
            Custody::Off
        } else if !valid {
            Custody::Invalid
        } else if self.duplicate(&envelope.tag) {
            Custody::Duplicate
        } else if self.full(peer, length) {
            Custody::Full
        } else {
            Custody::Accepted
        }
    }

    fn carry(&self, depositor: u64, envelope: &Envelope, cell: u16) -> Change {
        let mut carried = self.carried.clone();
        carried.push(Carried {
            slot: self.next_slot,
            depositor,
            tag: envelope.tag,
            commitment: envelope.commitment,
            expiry: envelope.expiry.min(self.lifetime_end()),
            copies: envelope.copies.min(self.setting.copies),
            len: envelope.ciphertext.len() as u16,
            cell,
        });
        Change {
            carried: Some(carried),
            carried_cell: vec![(cell, envelope.ciphertext.to_vec())],
            next_slot: Some(self.next_slot + 1),
            ..Change::default()
        }
    }

    pub fn envelope(&self, lent: &Lent, window: &[u8], peer: u64, envelope: &Envelope) -> Step {
        if lent.replies < 61_440 || self.short_actions(lent) {
            return refused(1);
        }
        if wrong_window(window) {
            return refused(12);
        }
        if self.strangers(peer, window) {
            return refused(2);
        }
        if let Some(row) = window_rows(window).iter().find(|row| row.tag == envelope.tag) {
            return said(Said::Ours {
                contact: row.contact,
                generation: row.generation,
                index: row.index,
            });
        }
        let code = self.code(peer, envelope);
        let mut outcome = Outcome::only(Said::Done);
        outcome.replies.push(custody_reply(&envelope.tag, code));
        if code != Custody::Accepted {
            return (outcome, Change::default());
        }
        let Some(cell) = free_cell(self.carried_cells, self.carried.iter().map(|row| row.cell)) else {
            return refused(4);
        };
        if self.next_slot == LAST_SLOT {
            return refused(6);
        }
        outcome.actions.push(put(self.next_slot));
        (outcome, self.carry(peer, envelope, cell))
    }

    /// `Receiver::window`: skipped keys, then chains last to first.
    pub fn window(&self, lent: &Lent, skipped: &[u8], chains: &[u8]) -> Step {
        if lent.answer < 3_000 {
            return refused(1);
        }
        let rows: Vec<ChainRow> = chains.chunks_exact(ChainRow::WIDTH).map(ChainRow::read).collect();
        let held = skipped.len() / SkippedRow::WIDTH;
        let wrong = !skipped.len().is_multiple_of(SkippedRow::WIDTH)
            || !chains.len().is_multiple_of(ChainRow::WIDTH)
            || skipped.chunks_exact(SkippedRow::WIDTH).any(|row| !is_dir(row[0]))
            || rows.iter().any(|row| !is_dir(row.dir) || row.next > 1 << 32)
            || held > 500;
        if wrong {
            return refused(12);
        }
        let mut bytes = skipped.to_vec();
        for row in rows.iter().rev() {
            let room = 500 - bytes.len() / SkippedRow::WIDTH;
            for index in (row.next..1 << 32).take(room) {
                let (dir, generation, index) = (row.dir, row.generation, index as u32);
                SkippedRow { dir, generation, index }.write(&mut bytes);
            }
        }
        let count = bytes.len() / SkippedRow::WIDTH;
        (Outcome::wrote(count, bytes), Change::default())
    }
}

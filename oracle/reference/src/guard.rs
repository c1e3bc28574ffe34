//! 4, 5 and 6: the source has no cells, no R and no last slot. It is asked, and what it did is taken back
//! where a row was added for which document 01 has no place.

use crate::core::source::Raw;
use crate::core::source::view::Snapshot;
use crate::{Reference, Source};
use post::Action;

impl Reference {
    /// Whether a row more would find no place.
    fn at_an_end(&self) -> bool {
        let (carried, tombstones) = self.source.held_counts();
        carried >= self.sizes.carried_cells
            || tombstones >= self.sizes.tombstone_rows
            || self.source.next_slot() == u64::MAX
    }

    /// The source can't take the last slot: it is lent another that no row has.
    pub(crate) fn lend_slot(&mut self) -> Option<u64> {
        if self.source.next_slot() != u64::MAX {
            return None;
        }
        let free = (0..u64::MAX).find(|slot| !self.source.has_slot(*slot))?;
        self.source.set_next_slot(free);
        Some(free)
    }

    fn number(&self, raw: &Raw, lent: Option<u64>) -> Option<u8> {
        let (carried, tombstones) = self.source.held_counts();
        let put = |slot| raw.actions.contains(&Action::Put { slot });
        if carried > self.sizes.carried_cells {
            Some(4)
        } else if tombstones > self.sizes.tombstone_rows {
            Some(5)
        } else if lent.is_some_and(put) {
            Some(6)
        } else {
            None
        }
    }

    pub(crate) fn guarded(&mut self, call: impl FnOnce(&mut Source) -> Raw) -> Result<Raw, u8> {
        if !self.at_an_end() {
            return Ok(call(&mut self.source));
        }
        let before: Snapshot = self.source.snapshot();
        let lent = self.lend_slot();
        let raw = call(&mut self.source);
        if let Some(number) = self.number(&raw, lent) {
            self.source.restore(before);
            return Err(number);
        }
        if lent.is_some() {
            self.source.set_next_slot(u64::MAX);
        }
        Ok(raw)
    }
}

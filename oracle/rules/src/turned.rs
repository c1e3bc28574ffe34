//! A carried row that turns tombstone, and the tombstone that goes before it.

use crate::tombs::LIMIT;
use crate::{Rules, Wrong};
use post::{Action, Held, HeldRow, Tag};

impl Rules {
    /// The tombstones that go before the carried row of this place turns: as for one that is stored, whatever its tag.
    pub(crate) fn gone_for(&self, place: usize) -> Vec<u64> {
        self.wrongly_gone_for(&self.state.held[place])
            .unwrap_or_else(|| self.displaced().into_iter().collect())
    }

    /// The slots of the tombstones by what `key` has of expiry and slot; the least comes first.
    fn tombstones_by<K: Ord>(&self, key: impl Fn(u32, u64) -> K) -> Vec<u64> {
        let mut rows: Vec<&HeldRow> = self.state.tombstones().collect();
        rows.sort_by_key(|row| key(row.held.expiry(), row.slot));
        rows.into_iter().map(|row| row.slot).collect()
    }

    /// Those that go under a switch of turned rows.
    fn wrongly_gone_for(&self, turning: &HeldRow) -> Option<Vec<u64>> {
        let there = self.state.tombstones().count();
        let from = |limit: usize| usize::from(there >= limit);
        let many = match self.wrong? {
            Wrong::TurnedRowPassesTheLimit => 0,
            Wrong::TurnedRowDisplacesAt1023 => from(LIMIT - 1),
            Wrong::TurnedRowDisplacesAt1025 => from(LIMIT + 1),
            Wrong::TurnedRowDisplacesAt1024Alone => usize::from(there == LIMIT),
            Wrong::TurnedRowDisplacesAtR => from(LIMIT.min(self.sizes.tombstone_rows)),
            Wrong::TwoGoForATurnedRow => 2 * from(LIMIT),
            Wrong::AllAboveTheLimitGo => (there + 1).saturating_sub(LIMIT),
            Wrong::TombstonedTagMakesNoRoom if self.has_tombstone(turning.held.tag()) => 0,
            _ => return self.wrongly_chosen(turning).filter(|_| there >= LIMIT),
        };
        let mut rows = self.tombstones_by(|expiry, slot| (expiry, slot));
        rows.truncate(many);
        Some(rows)
    }

    /// Another than the one of least expiry, lowest slot among equals.
    fn wrongly_chosen(&self, turning: &HeldRow) -> Option<Vec<u64>> {
        let least = |rows: Vec<u64>| rows.into_iter().take(1).collect();
        let usual = self.tombstones_by(|expiry, slot| (expiry, slot));
        let of_its_tag = |slot: &u64| self.tag_in(*slot) == Some(turning.held.tag());
        match self.wrong? {
            Wrong::TurnedRowIsACandidate => {
                let first = self.state.tombstones().map(|row| (row.held.expiry(), row.slot)).min();
                let own = (turning.held.expiry(), turning.slot);
                let goes = first.is_none_or(|first| own < first);
                Some(if goes { vec![turning.slot] } else { least(usual) })
            }
            Wrong::TurnedRowDisplacesTheHighestSlot => {
                Some(least(self.tombstones_by(|expiry, slot| (expiry, u64::MAX - slot))))
            }
            Wrong::TurnedRowDisplacesItsTag => {
                let own = usual.iter().copied().find(of_its_tag);
                Some(own.map_or_else(|| least(usual), |slot| vec![slot]))
            }
            Wrong::TurnedRowDisplacesPastOnes => {
                let is_past = |row: &&HeldRow| row.held.expiry() <= self.minute();
                let past = self.state.tombstones().filter(is_past).count();
                Some(usual.into_iter().take(past.min(1)).collect())
            }
            _ => None,
        }
    }

    fn tag_in(&self, slot: u64) -> Option<&Tag> {
        let row = self.state.held.iter().find(|row| row.slot == slot)?;
        Some(row.held.tag())
    }

    /// Room is made for it; then it turns in its slot and with its expiry.
    pub(crate) fn turn(&mut self, place: usize, tag: Tag, secret: [u8; 16]) -> Vec<Action> {
        let (slot, expiry) = (self.state.held[place].slot, self.state.held[place].held.expiry());
        let expiry = self.unless(Wrong::TurnedRowLivesOn, expiry, self.lifetime_end());
        let gone = self.gone_for(place);
        let first = gone.first().copied();
        let mut actions = if self.is(Wrong::DisplacedByWordAlone) {
            gone.into_iter().map(|slot| Action::Delete { slot }).collect()
        } else {
            self.make_room(gone)
        };
        let held = Held::Tombstone { tag, secret, expiry };
        match (self.wrong, first) {
            (Some(Wrong::TurnedRowGetsANewSlot), _) => {
                actions.extend(self.make_room([slot]));
                actions.push(self.put_new(held));
            }
            (Some(Wrong::TurnedRowTakesTheFreedSlot), Some(freed)) => {
                actions.extend(self.make_room([slot]));
                self.state.held.push(HeldRow { slot: freed, held });
                self.state.held.sort_by_key(|row| row.slot);
                actions.push(Action::Put { slot: freed });
            }
            _ => {
                let row = self.state.held.iter_mut().find(|row| row.slot == slot);
                row.into_iter().for_each(|row| row.held = held.clone());
                actions.push(Action::Put { slot });
            }
        }
        self.wrongly_listed(actions)
    }

    /// The deletion behind the put, or not there.
    fn wrongly_listed(&self, mut actions: Vec<Action>) -> Vec<Action> {
        match self.wrong {
            Some(Wrong::TurnedRowPutFirst) => actions.reverse(),
            Some(Wrong::TurnedRowDeletesInSilence) => actions.retain(|action| matches!(action, Action::Put { .. })),
            _ => {}
        }
        actions
    }
}

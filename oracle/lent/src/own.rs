//! Own envelopes, and maintenance.

use crate::custody::free_cell;
use crate::rows::Own;
use crate::settings::{delete, own_put};
use crate::state::{Change, Lent, Outcome, Said, State, Step, refused, said};
use post::NewOwn;

impl State<'_> {
    fn added_before(&self, id: u64) -> usize {
        let place = self.contacts.iter().position(|row| row.id == id);
        place.unwrap_or(self.contacts.len())
    }

    fn stands_after(&self, new: &Own, row: &Own) -> bool {
        self.added_before(new.contact) < self.added_before(row.contact)
            || (new.contact == row.contact && new.message < row.message)
    }

    pub fn own_envelope(&self, new: &NewOwn) -> Step {
        let length = new.ciphertext.len();
        if !self.knows(new.contact) {
            return refused(2);
        }
        let taken = |row: &Own| row.contact == new.contact && row.message == new.message;
        if self.own.iter().any(taken) {
            return refused(10);
        }
        if ![48, 80, 144, 272, 528, 1_040, 2_064, 4_064].contains(&length) {
            return refused(11);
        }
        if length > 2_064 || self.own.len() >= 256 {
            return said(Said::NoEnvelope);
        }
        let Some(cell) = free_cell(self.own_cells, self.own.iter().map(|row| row.cell)) else {
            return refused(4);
        };
        let row = Own {
            contact: new.contact,
            message: new.message,
            tag: rules::route_tag(&new.route_key, new.dir.label(), new.generation, new.index),
            secret: new.secret,
            expiry: self.lifetime_end(),
            copies: self.setting.copies,
            renewed: 0,
            len: length as u16,
            cell,
        };
        let mut own = self.own.clone();
        let place = own.iter().position(|other| self.stands_after(&row, other));
        own.insert(place.unwrap_or(own.len()), row);
        let change = Change {
            own: Some(own),
            own_cell: Some((cell, new.ciphertext.to_vec())),
            ..Change::default()
        };
        (Outcome::only(Said::Own(row)), change)
    }

    pub fn maintenance(&self, lent: &Lent) -> Step {
        if self.short_actions(lent) {
            return refused(1);
        }
        let (minute, end) = (self.minute(), self.lifetime_end());
        let mut actions = Vec::new();
        let mut own = Vec::new();
        for row in &self.own {
            let expired = row.expiry <= minute;
            if expired {
                actions.push(own_put(row.contact, row.message));
            }
            if expired && row.renewed == 0 {
                own.push(Own {
                    expiry: end,
                    copies: self.setting.copies,
                    renewed: 1,
                    ..*row
                });
            } else if !expired {
                own.push(*row);
            }
        }
        let carried = self
            .carried
            .iter()
            .filter(|row| row.expiry <= minute)
            .map(|row| row.slot);
        let tombstones = self
            .tombstones
            .iter()
            .filter(|row| row.expiry <= minute)
            .map(|row| row.slot);
        let slots = merged(carried.collect(), tombstones.collect(), |slot| *slot);
        actions.extend(slots.into_iter().map(delete));
        let change = Change {
            own: Some(own),
            carried: Some(self.carried.iter().filter(|row| row.expiry > minute).copied().collect()),
            tombstones: Some(
                self.tombstones
                    .iter()
                    .filter(|row| row.expiry > minute)
                    .copied()
                    .collect(),
            ),
            ..Change::default()
        };
        (Outcome::actions(actions), change)
    }
}

/// Two lists as one, by a number of each element; of equal ones the first list's come first.
pub fn merged<T>(one: Vec<T>, two: Vec<T>, key: impl Fn(&T) -> u64) -> Vec<T> {
    let (mut one, mut two) = (one.into_iter().peekable(), two.into_iter().peekable());
    let mut all = Vec::new();
    loop {
        let first = match (one.peek(), two.peek()) {
            (Some(a), Some(b)) => key(a) <= key(b),
            (Some(_), None) => true,
            (None, Some(_)) => false,
            (None, None) => return all,
        };
        all.extend(if first { one.next() } else { two.next() });
    }
}

//! Tombs, stored tombstones and reports.

use crate::custody::LAST_SLOT;
use crate::rows::{BadTag, Tombstone};
use crate::settings::{delete, own_put, put, tomb_reply};
use crate::state::{Change, Lent, Outcome, Said, State, Step, refused, said};
use post::Tag;

/// At so many tombstones one goes before another is added.
const LIMIT: usize = 1_024;

impl State<'_> {
    /// Room for one tombstone, stored or turned: those that stay, and the deletion of the one that goes, the first of least expiry. 5 if all
    /// rows are used by those that stay.
    fn room(&self) -> Result<(Vec<Tombstone>, Vec<[u8; 13]>), u8> {
        let (mut stay, mut gone) = (self.tombstones.clone(), Vec::new());
        if self.reading.limited(stay.len(), self.said_tombstones) >= LIMIT
            && let Some(place) = self.reading.goes(&stay)
        {
            gone.push(delete(stay.remove(place).slot));
        }
        if stay.len() >= self.tombstone_rows {
            return Err(5);
        }
        Ok((stay, gone))
    }

    /// A tombstone stored: the refusal, or actions and change; nothing if its tag has one.
    fn store(&self, tag: Tag, secret: [u8; 16], expiry: u32) -> Result<Step, u8> {
        if self.tombstones.iter().any(|row| row.tag == tag) {
            return Ok(said(Said::Done));
        }
        let (mut tombstones, mut actions) = self.room()?;
        if self.next_slot == LAST_SLOT {
            return Err(6);
        }
        actions.push(put(self.next_slot));
        tombstones.push(Tombstone {
            slot: self.next_slot,
            tag,
            secret,
            expiry,
        });
        let change = Change {
            tombstones: Some(tombstones),
            next_slot: Some(self.next_slot + 1),
            ..Change::default()
        };
        Ok((Outcome::actions(actions), change))
    }

    pub fn stored(&self, lent: &Lent, tag: Tag, secret: [u8; 16], expiry: u32) -> Step {
        if self.short_actions(lent) {
            return refused(1);
        }
        self.store(tag, secret, expiry).unwrap_or_else(refused)
    }

    /// The carried row of a place turned tombstone: its slot and expiry, by slot among those that stay.
    fn turn(&self, place: usize, tag: Tag, secret: [u8; 16]) -> Result<Step, u8> {
        let (mut tombstones, mut actions) = self.room()?;
        let mut carried = self.carried.clone();
        let row = carried.remove(place);
        let after = tombstones.iter().position(|other| row.slot < other.slot);
        let turned = Tombstone {
            slot: row.slot,
            tag,
            secret,
            expiry: row.expiry,
        };
        tombstones.insert(after.unwrap_or(tombstones.len()), turned);
        self.reading.placed(&mut tombstones);
        actions.push(put(row.slot));
        let change = Change {
            carried: Some(carried),
            tombstones: Some(tombstones),
            ..Change::default()
        };
        Ok((Outcome::actions(actions), change))
    }

    fn end_own(&self, place: usize, tag: Tag, secret: [u8; 16]) -> Step {
        let mut own = self.own.clone();
        let row = own.remove(place);
        match self.store(tag, secret, row.expiry) {
            Err(number) => refused(number),
            Ok((mut outcome, change)) => {
                outcome.actions.insert(0, own_put(row.contact, row.message));
                let own = Some(own);
                (outcome, Change { own, ..change })
            }
        }
    }

    pub fn tomb(&self, lent: &Lent, peer: u64, tag: Tag, secret: [u8; 16]) -> Step {
        if self.short_actions(lent) {
            return refused(1);
        }
        if !self.knows(peer) {
            return refused(2);
        }
        let commitment = rules::commitment(&secret);
        if let Some(place) = self.carried.iter().position(|row| row.tag == tag) {
            if self.carried[place].commitment != commitment {
                return said(Said::Malformed);
            }
            return self.turn(place, tag, secret).unwrap_or_else(refused);
        }
        let Some(place) = self.own.iter().position(|row| row.tag == tag) else {
            return said(Said::Done);
        };
        if rules::commitment(&self.own[place].secret) != commitment {
            return said(Said::Malformed);
        }
        self.end_own(place, tag, secret)
    }

    pub fn opened(&self, lent: &Lent, peer: u64, tag: Tag, secret: [u8; 16], expiry: u32) -> Step {
        if lent.replies < 61_440 || self.short_actions(lent) {
            return refused(1);
        }
        if !self.knows(peer) {
            return refused(2);
        }
        match self.store(tag, secret, expiry.min(self.lifetime_end())) {
            Err(number) => refused(number),
            Ok((mut outcome, change)) => {
                outcome.replies.push(tomb_reply(&tag, &secret));
                (outcome, change)
            }
        }
    }

    pub fn failed(&self, peer: u64, tag: Tag) -> Step {
        if !self.knows(peer) {
            return refused(2);
        }
        let mut bad_tags = self.bad_tags.clone();
        let new = BadTag { peer, tag };
        if bad_tags.contains(&new) {
            return said(Said::Malformed);
        }
        if bad_tags.len() >= self.bad_rows {
            return refused(9);
        }
        bad_tags.push(new);
        let bad_tags = Some(bad_tags);
        let change = Change {
            bad_tags,
            ..Change::default()
        };
        (Outcome::only(Said::Malformed), change)
    }
}

//! Own rows and maintenance.

use crate::{Rules, Wrong, done};
use post::{Action, Answer, HeldRow, NewOwn, OwnRow};

const MOST_OWN: usize = 256;

impl Rules {
    /// Own rows by contact as added and message number.
    pub(crate) fn sort_own(&mut self) {
        let by_message = self.is(Wrong::OwnRowsByMessageOnly);
        let contacts = &self.state.contacts;
        let place = |id: u64| contacts.iter().position(|contact| contact.id == id);
        let by_number = self.is(Wrong::OwnRowsByContactNumber);
        self.state.own.sort_by_key(|row| {
            let place = if by_number {
                Some(row.contact as usize)
            } else {
                place(row.contact)
            };
            (if by_message { None } else { place }, row.message)
        });
    }

    /// Inner length 4,048, or 256 own rows there.
    pub(crate) fn no_envelope(&self, ciphertext: &[u8]) -> bool {
        let most = self.unless(Wrong::OwnUpTo255, MOST_OWN, MOST_OWN - 1);
        let long = ciphertext.len() > 2048 + 16 && !self.is(Wrong::OwnRowOf4048IsHeld);
        long || self.state.own.len() >= most
    }

    pub(crate) fn own_envelope(&mut self, new: &NewOwn) -> Answer {
        if self.no_envelope(&new.ciphertext) {
            return Answer::NoEnvelope;
        }
        let row = OwnRow {
            contact: new.contact,
            message: new.message,
            tag: self.own_tag(&new.route_key, new.dir.label(), new.generation, new.index),
            secret: new.secret,
            expiry: self.lifetime_end(),
            copies: self.state.setting.copies,
            renewed: false,
            ciphertext: new.ciphertext.clone(),
        };
        self.state.own.push(row.clone());
        self.sort_own();
        Answer::Own(row)
    }

    fn is_past(&self, expiry: u32) -> bool {
        let now = self.minute();
        if self.is(Wrong::ExpiryOfThisMinuteStays) {
            expiry < now
        } else {
            expiry <= now
        }
    }

    /// Expired once: renewed. The second time: dropped.
    fn renew(&mut self) -> Vec<Action> {
        let (end, copies) = (self.lifetime_end(), self.state.setting.copies);
        let (mut kept, mut actions) = (Vec::new(), Vec::new());
        for mut row in std::mem::take(&mut self.state.own) {
            if !self.is_past(row.expiry) {
                kept.push(row);
                continue;
            }
            actions.push(Action::OwnPut {
                contact: row.contact,
                message: row.message,
            });
            let drops = row.renewed && !self.is(Wrong::RenewsEveryTime);
            if drops || self.is(Wrong::NeverRenews) {
                continue;
            }
            row.expiry = end;
            row.copies = self.unless(Wrong::RenewalKeepsCopies, copies, row.copies);
            row.renewed = true;
            kept.push(row);
        }
        self.state.own = kept;
        actions
    }

    /// Held rows with expiry up to this minute go, by slot.
    fn expire(&mut self) -> Vec<Action> {
        let stays = |row: &HeldRow| self.is(Wrong::TombstonesNeverExpire) && !row.held.is_carried();
        let mut past: Vec<(bool, u64)> = self
            .state
            .held
            .iter()
            .filter(|row| self.is_past(row.held.expiry()) && !stays(row))
            .map(|row| (!row.held.is_carried(), row.slot))
            .collect();
        if self.is(Wrong::CarriedRowsGoFirst) {
            past.sort();
        }
        self.state
            .held
            .retain(|row| !past.iter().any(|(_, slot)| *slot == row.slot));
        past.into_iter().map(|(_, slot)| Action::Delete { slot }).collect()
    }

    pub(crate) fn maintenance(&mut self) -> Answer {
        let actions = if self.is(Wrong::HeldRowsBeforeOwn) {
            let held = self.expire();
            [held, self.renew()].concat()
        } else {
            let own = self.renew();
            [own, self.expire()].concat()
        };
        done(Vec::new(), actions)
    }
}

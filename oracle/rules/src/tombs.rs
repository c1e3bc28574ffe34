//! Tombs, stored tombstones and reports.

use crate::{Rules, Wrong, commitment, done, malformed};
use post::{Action, Answer, Held, Reply, Tag};

/// What a tomb meets: the place of a carried or of an own row, a wrong secret, or nothing.
#[derive(Clone, Copy, PartialEq, Eq)]
pub(crate) enum Met {
    Carried(usize),
    Own(usize),
    WrongSecret,
    Nothing,
}

/// At so many tombstones or more one goes before another comes.
pub(crate) const LIMIT: usize = 1024;

impl Rules {
    fn met_carried(&self, tag: &Tag, secret: &[u8; 16]) -> Option<Met> {
        self.state
            .held
            .iter()
            .enumerate()
            .find_map(|(place, row)| match &row.held {
                Held::Carried { envelope, .. } if envelope.tag == *tag => {
                    let right = envelope.commitment == commitment(secret);
                    Some(if right { Met::Carried(place) } else { Met::WrongSecret })
                }
                _ => None,
            })
    }

    fn met_own(&self, tag: &Tag, secret: &[u8; 16]) -> Option<Met> {
        let place = self.state.own.iter().position(|row| row.tag == *tag)?;
        let right = self.state.own[place].secret == *secret;
        Some(if right { Met::Own(place) } else { Met::WrongSecret })
    }

    /// A carried row first; a wrong secret there is the end of it.
    pub(crate) fn met(&self, tag: &Tag, secret: &[u8; 16]) -> Met {
        let (carried, own) = (self.met_carried(tag, secret), self.met_own(tag, secret));
        let met = match self.wrong {
            Some(Wrong::TombLooksAtOwnFirst) => own.or(carried),
            Some(Wrong::WrongSecretFallsThrough) if carried == Some(Met::WrongSecret) => own.or(carried),
            _ => carried.or(own),
        };
        met.unwrap_or(self.unless(Wrong::UnknownTombIsMalformed, Met::Nothing, Met::WrongSecret))
    }

    pub(crate) fn has_tombstone(&self, tag: &Tag) -> bool {
        self.state.tombstones().any(|row| row.held.tag() == tag)
    }

    /// The slot of the tombstone that goes before one is added, stored or turned: at 1,024 or more, least expiry, lowest slot among equals.
    pub(crate) fn displaced(&self) -> Option<u64> {
        let limit = self.unless(
            Wrong::TombstonesUpTo1025,
            self.unless(Wrong::TombstonesUpTo1023, LIMIT, LIMIT - 1),
            LIMIT + 1,
        );
        if self.state.tombstones().count() < limit {
            return None;
        }
        let rows = self.state.tombstones().map(|row| (row.held.expiry(), row.slot));
        let (_, slot) = match self.wrong {
            Some(Wrong::DisplacesTheHighestSlot) => rows.min_by_key(|(expiry, slot)| (*expiry, u64::MAX - slot)),
            Some(Wrong::DisplacesTheLatestExpiry) => rows.max_by_key(|(expiry, slot)| (*expiry, u64::MAX - slot)),
            Some(Wrong::DisplacesTheOldest) => rows.min_by_key(|(_, slot)| *slot),
            _ => rows.min(),
        }?;
        Some(slot)
    }

    /// The tombstones of these slots go.
    pub(crate) fn make_room(&mut self, gone: impl IntoIterator<Item = u64>) -> Vec<Action> {
        let gone: Vec<u64> = gone.into_iter().collect();
        self.state.held.retain(|row| !gone.contains(&row.slot));
        gone.into_iter().map(|slot| Action::Delete { slot }).collect()
    }

    /// Whether `store` adds a row: not if the tag has a tombstone.
    pub(crate) fn would_store(&self, tag: &Tag) -> bool {
        let carried = self.state.carried().any(|(_, _, envelope)| envelope.tag == *tag);
        let has = self.has_tombstone(tag) && !self.is(Wrong::SecondTombstoneIsStored);
        let hidden = self.is(Wrong::CarriedTagIsNotStored) && carried;
        !has && !hidden
    }

    pub(crate) fn store(&mut self, tag: Tag, secret: [u8; 16], expiry: u32) -> Vec<Action> {
        if !self.would_store(&tag) {
            let early = self.is(Wrong::DisplacesBeforeLooking);
            return self.make_room(self.displaced().filter(|_| early));
        }
        let mut actions = self.make_room(self.displaced());
        actions.push(self.put_new(Held::Tombstone { tag, secret, expiry }));
        actions
    }

    pub(crate) fn tomb(&mut self, tag: Tag, secret: [u8; 16]) -> Answer {
        match self.met(&tag, &secret) {
            Met::WrongSecret if self.is(Wrong::WrongSecretDisplaces) => {
                self.make_room(self.displaced());
                malformed()
            }
            Met::WrongSecret => malformed(),
            Met::Nothing => {
                let gone = self.displaced().filter(|_| self.is(Wrong::UnknownTombDisplaces));
                done(Vec::new(), self.make_room(gone))
            }
            Met::Carried(place) => done(Vec::new(), self.turn(place, tag, secret)),
            Met::Own(place) => {
                let row = self.state.own.remove(place);
                let mut actions = vec![Action::OwnPut {
                    contact: row.contact,
                    message: row.message,
                }];
                if !self.is(Wrong::EndedOwnRowLeavesNoTombstone) {
                    actions.extend(self.store(tag, secret, row.expiry));
                }
                done(Vec::new(), actions)
            }
        }
    }

    /// The tomb is answered also where nothing is stored.
    pub(crate) fn opened(&mut self, tag: Tag, secret: [u8; 16], expiry: u32) -> Answer {
        let stored = self.would_store(&tag);
        let end = self.unless(Wrong::OpenedKeepsTheEnvelopesExpiry, self.lifetime_end(), u32::MAX);
        let actions = self.store(tag, secret, expiry.min(end));
        let silent = self.is(Wrong::NoTombIfNothingStored) && !stored;
        let replies = if silent {
            Vec::new()
        } else {
            vec![Reply::Tomb(tag, secret)]
        };
        done(replies, actions)
    }

    pub(crate) fn failed(&mut self, peer: u64, tag: Tag) -> Answer {
        self.state.bad.insert((peer, tag));
        if self.is(Wrong::FailedIsNotMalformed) {
            done(Vec::new(), Vec::new())
        } else {
            malformed()
        }
    }
}

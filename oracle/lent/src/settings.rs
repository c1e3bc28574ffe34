//! What the host sets, and the rows of the answer areas.

use crate::rows::ContactRow;
use crate::state::{Change, Lent, Outcome, Said, State, Step, refused};
use post::{Call, Custody, Setting, Tag};

pub fn put(slot: u64) -> [u8; 13] {
    action(0, slot, 0)
}

pub fn delete(slot: u64) -> [u8; 13] {
    action(1, slot, 0)
}

pub fn own_put(contact: u64, message: u32) -> [u8; 13] {
    action(2, contact, message)
}

fn action(kind: u8, number: u64, message: u32) -> [u8; 13] {
    let mut row = [kind; 13];
    row[1..9].copy_from_slice(&number.to_be_bytes());
    row[9..].copy_from_slice(&message.to_be_bytes());
    row
}

/// A reply: kind, cell, body, zeros behind it.
pub fn reply(kind: u8, cell: u16, body: &[u8]) -> [u8; 40] {
    let mut row = [0; 40];
    row[0] = kind;
    row[1..3].copy_from_slice(&cell.to_be_bytes());
    row[3..3 + body.len()].copy_from_slice(body);
    row
}

pub fn custody_reply(tag: &Tag, code: Custody) -> [u8; 40] {
    reply(2, 0, &[&tag[..], &[code.code()]].concat())
}

pub fn tomb_reply(tag: &Tag, secret: &[u8; 16]) -> [u8; 40] {
    reply(3, 0, &[*tag, *secret].concat())
}

impl State<'_> {
    pub fn short_exchange(&self, lent: &Lent) -> bool {
        lent.prefixes < 4_096 || lent.offers < 8_704
    }

    fn contact(&self, new: ContactRow) -> Step {
        let mut contacts = self.contacts.clone();
        match contacts.iter().position(|row| row.id == new.id) {
            Some(place) => contacts[place] = new,
            None if contacts.len() >= 256 => return refused(13),
            None => contacts.push(new),
        }
        let contacts = Some(contacts);
        let change = Change {
            contacts,
            ..Change::default()
        };
        (Outcome::only(Said::Done), change)
    }

    fn setting(&self, setting: Setting) -> Step {
        if !(1..=16).contains(&setting.copies) || !(60..=10_080).contains(&setting.lifetime) {
            return refused(7);
        }
        let setting = Some(setting);
        let change = Change {
            setting,
            ..Change::default()
        };
        (Outcome::only(Said::Done), change)
    }

    fn fresh_exchange(&self, lent: &Lent, peer: u64) -> Step {
        if self.short_exchange(lent) {
            return refused(1);
        }
        if !self.knows(peer) {
            return refused(2);
        }
        let change = Change {
            peer: Some(peer),
            complete: Some(false),
            listed: Some(Vec::new()),
            offered: Some(Vec::new()),
            ..Change::default()
        };
        (Outcome::only(Said::Done), change)
    }

    pub fn set(&self, call: &Call) -> Step {
        match *call {
            Call::Contact { id, verification } => self.contact(ContactRow {
                id,
                verification: verification as u8,
            }),
            Call::Setting {
                enabled,
                copies,
                lifetime,
            } => self.setting(Setting {
                enabled,
                copies,
                lifetime,
            }),
            Call::Clock { seconds } => {
                let clock = Some(seconds);
                let change = Change {
                    clock,
                    ..Change::default()
                };
                (Outcome::only(Said::Done), change)
            }
            Call::FreshExchange { ref areas, peer, .. } => self.fresh_exchange(areas, peer),
            _ => unreachable!("a call that sets"),
        }
    }
}

//! What a post made of the source shows of itself, and how a refused call is taken back.

use super::Source;
use crate::core::ContactId;
use crate::core::convert::{held_out, own_out, verification_out};
use crate::state::{Held, Outgoing};
use alloc::collections::BTreeMap;
use post::Tag;

/// What a refused call gives back.
pub(crate) struct Snapshot {
    held: BTreeMap<u64, Held>,
    next_slot: u64,
    queued: Vec<BTreeMap<u32, Outgoing>>,
}

impl Source {
    pub fn knows(&self, id: u64) -> bool {
        self.device().contacts.iter().any(|contact| contact.id.0 == id)
    }

    pub fn is_bad(&self, peer: u64, tag: &Tag) -> bool {
        self.core.bad_tags.contains(&(ContactId(peer), *tag))
    }

    pub fn bad_count(&self) -> usize {
        self.core.bad_tags.len()
    }

    pub fn contact_count(&self) -> usize {
        self.device().contacts.len()
    }

    pub fn next_slot(&self) -> u64 {
        self.device().next_slot
    }

    pub fn has_message(&self, contact: u64, message: u32) -> bool {
        self.core.contact(ContactId(contact)).queued.contains_key(&message)
    }

    pub fn own_count(&self) -> usize {
        self.device().contacts.iter().map(|contact| contact.queued.len()).sum()
    }

    /// How many carried rows, and how many tombstones.
    pub fn held_counts(&self) -> (usize, usize) {
        let held = &self.device().held;
        let carried = held
            .values()
            .filter(|held| matches!(held, Held::Carried { .. }))
            .count();
        (carried, held.len() - carried)
    }

    pub fn has_slot(&self, slot: u64) -> bool {
        self.device().held.contains_key(&slot)
    }

    pub(crate) fn exchange_peer(&self, exchange: usize) -> Option<u64> {
        let session = self.core.sessions.get(exchange)?.as_ref()?;
        Some(session.contact.0)
    }

    /// Takes an exchange out of this post and gives it to `other`, where it is exchange 0.
    pub(crate) fn move_exchange(&mut self, exchange: usize, other: &mut Self) {
        other.core.sessions[0] = self.core.sessions[exchange].take();
    }

    pub(crate) fn snapshot(&self) -> Snapshot {
        let device = self.device();
        Snapshot {
            held: device.held.clone(),
            next_slot: device.next_slot,
            queued: device.contacts.iter().map(|contact| contact.queued.clone()).collect(),
        }
    }

    pub(crate) fn restore(&mut self, snapshot: Snapshot) {
        let device = self.device_mut();
        device.held = snapshot.held;
        device.next_slot = snapshot.next_slot;
        for (contact, queued) in device.contacts.iter_mut().zip(snapshot.queued) {
            contact.queued = queued;
        }
    }

    /// All but the exchanges.
    pub fn state(&self) -> post::State {
        let device = self.device();
        let contacts = device.contacts.iter();
        let own = contacts.clone().flat_map(|contact| {
            contact.queued.iter().filter_map(move |(&message, outgoing)| {
                let own = outgoing.envelope.as_ref()?;
                Some(own_out(contact.id.0, message, outgoing, own))
            })
        });
        post::State {
            clock: self.core.now_s,
            setting: post::Setting {
                enabled: device.courier.enabled,
                copies: device.courier.copies,
                lifetime: device.courier.lifetime_min,
            },
            own: own.collect(),
            contacts: contacts
                .map(|contact| post::Contact {
                    id: contact.id.0,
                    verification: verification_out(contact.verification),
                })
                .collect(),
            held: device
                .held
                .iter()
                .map(|(&slot, held)| post::HeldRow {
                    slot,
                    held: held_out(held),
                })
                .collect(),
            next_slot: device.next_slot,
            bad: self.core.bad_tags.iter().map(|(peer, tag)| (peer.0, *tag)).collect(),
            exchanges: Vec::new(),
        }
    }
}

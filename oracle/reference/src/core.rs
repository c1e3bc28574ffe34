//! Stands in for core.rs: the fields and the five helpers that couriering.rs uses, and nothing else.

include!(concat!(env!("OUT_DIR"), "/core.rs"));

pub(crate) mod convert;
pub(crate) mod source;

use crate::state::{Contact, Device, Persisted};
use alloc::collections::{BTreeMap, BTreeSet};
use cairn_crypto::CryptoError;
use std::marker::PhantomData;

#[derive(Debug, Clone, Copy, PartialEq, Eq, PartialOrd, Ord)]
pub struct ContactId(pub u64);

#[derive(Debug, Clone, Copy, PartialEq, Eq)]
pub enum Verification {
    Unverified,
    Verified,
    Compromised,
}

/// The actions that couriering.rs makes. A contact row is written around a report; its content is not compared.
#[derive(Debug, Clone, PartialEq, Eq)]
pub enum Action {
    PersistContact {
        contact: ContactId,
        state: Persisted,
    },
    PutQueued {
        contact: ContactId,
        msgno: u32,
        state: Persisted,
    },
    PutCourier {
        slot: u64,
        state: Persisted,
    },
    DeleteCourier {
        slot: u64,
    },
}

#[derive(Debug, Clone, Copy, PartialEq, Eq)]
pub enum CoreError {
    Crypto(CryptoError),
}

impl From<CryptoError> for CoreError {
    fn from(error: CryptoError) -> Self {
        Self::Crypto(error)
    }
}

/// One of the open exchanges, with the contact that it was opened for.
pub(crate) struct SessionLink {
    contact: ContactId,
    exchange: couriering::Exchange,
}

pub(crate) struct Core<B> {
    device: Option<Device>,
    bad_tags: BTreeSet<(ContactId, [u8; 16])>,
    tags: BTreeMap<couriering::TagKey, [u8; 16]>,
    now_s: u64,
    /// The source has one session for each contact; here each exchange has its place, and `current` names one.
    sessions: Vec<Option<SessionLink>>,
    current: usize,
    backend: PhantomData<B>,
}

impl<B> Core<B> {
    fn contact(&self, id: ContactId) -> &Contact {
        let contacts = &self.device.as_ref().expect("restored").contacts;
        contacts.iter().find(|contact| contact.id == id).expect("known contact")
    }

    fn contact_mut(&mut self, id: ContactId) -> &mut Contact {
        let contacts = &mut self.device.as_mut().expect("restored").contacts;
        contacts
            .iter_mut()
            .find(|contact| contact.id == id)
            .expect("known contact")
    }

    fn session_mut(&mut self, contact: ContactId) -> Option<(usize, &mut SessionLink)> {
        let current = self.current;
        let session = self.sessions.get_mut(current)?.as_mut()?;
        (session.contact == contact).then_some((current, session))
    }

    /// Messages are not shown here.
    fn accept(&mut self, _: ContactId, _: u32, _: String, _: &mut Vec<Action>) {}

    fn persist_contact(&self, contact: ContactId, actions: &mut Vec<Action>) {
        let state = self.contact(contact).row().state;
        actions.push(Action::PersistContact { contact, state });
    }
}

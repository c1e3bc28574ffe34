//! One meeting with a peer.

use crate::{
    ContactId, Prefix,
    rows::{Fields, Typed},
};
use alloc::boxed::Box;
use core::fmt;
use goosetable_sys::{EXCHANGE, MAX_LISTED, OFFERS, Session};

/// One meeting with a peer: what the peer listed, and what was offered to it and is not yet answered.
/// [`Post::fresh_exchange`](crate::Post::fresh_exchange) opens it; several may be open at once.
#[derive(Clone, PartialEq, Eq)]
pub struct Exchange {
    pub(crate) state: [u8; EXCHANGE],
    pub(crate) prefixes: Box<[Prefix; MAX_LISTED]>,
    pub(crate) offers: Box<[u8; OFFERS]>,
}

impl Exchange {
    /// An exchange that is opened for nobody.
    pub fn closed() -> Exchange {
        Exchange {
            state: [0; EXCHANGE],
            prefixes: Box::new([[0; 8]; MAX_LISTED]),
            offers: Box::new([0; OFFERS]),
        }
    }

    /// Its areas, for a call.
    pub(crate) fn lent(&mut self) -> Session<'_> {
        Session {
            exchange: &mut self.state,
            prefixes: self.prefixes.as_flattened_mut(),
            offers: &mut *self.offers,
        }
    }

    /// Whom it was opened for.
    pub fn peer(&self) -> Option<ContactId> {
        (self.state[0] != 0).then(|| Fields(&self.state[2..]).contact())
    }

    /// Has the peer's inventory ended?
    pub fn is_complete(&self) -> bool {
        self.state[1] != 0
    }

    /// How many prefixes the peer has listed so far; none once its inventory has ended.
    pub fn listed(&self) -> u64 {
        Fields(&self.state[10..]).u64()
    }

    /// How many offers wait for a custody code.
    pub fn offered(&self) -> u64 {
        Fields(&self.state[18..]).u64()
    }
}

impl fmt::Debug for Exchange {
    fn fmt(&self, f: &mut fmt::Formatter<'_>) -> fmt::Result {
        f.debug_struct("Exchange")
            .field("peer", &self.peer())
            .field("complete", &self.is_complete())
            .field("listed", &self.listed())
            .field("offered", &self.offered())
            .finish()
    }
}

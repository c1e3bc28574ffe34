//! What a host lends: bytes.

use crate::{Device, Exchange, Own, Row};
use post::{Sizes, array};

/// An exchange and the two areas beside it.
#[derive(Debug, Clone, PartialEq, Eq)]
pub struct Session {
    pub exchange: [u8; Exchange::LENGTH],
    pub prefixes: Vec<u8>,
    pub offers: Vec<u8>,
}

/// Every area of a post. Those of an exchange and of answers are as long as the longest that a call lends; a call is lent the front.
#[derive(Debug, Clone, PartialEq, Eq)]
pub struct Areas {
    pub device: [u8; Device::LENGTH],
    pub contacts: Vec<u8>,
    pub own: Vec<u8>,
    pub carried: Vec<u8>,
    pub tombstones: Vec<u8>,
    pub bad_tags: Vec<u8>,
    pub own_cells: Vec<u8>,
    pub carried_cells: Vec<u8>,
    pub sessions: Vec<Session>,
    pub replies: Vec<u8>,
    pub actions: Vec<u8>,
    pub answer: Vec<u8>,
    /// Where an own envelope's row is answered.
    pub row: Vec<u8>,
}

/// What a longest area has more than document 01 asks: areas may be longer.
const MORE: usize = 128;

/// Bytes that depend on their place.
fn pattern(length: usize, salt: usize) -> Vec<u8> {
    (0..length)
        .map(|place| (place.wrapping_mul(0x9e37) ^ (place >> 8) ^ (salt * 0x55)) as u8)
        .collect()
}

/// Opened for nobody; the bytes of its peer are any.
fn closed_exchange(salt: usize) -> [u8; Exchange::LENGTH] {
    let mut exchange = [0; Exchange::LENGTH];
    exchange[Exchange::PEER..Exchange::LISTED].copy_from_slice(&pattern(8, salt));
    exchange
}

impl Areas {
    /// As a host has them before its first call.
    pub fn untouched(sizes: &Sizes) -> Self {
        let enough = post::Areas::enough(sizes);
        let session = |place| Session {
            exchange: closed_exchange(60 + place),
            prefixes: pattern(enough.prefixes + MORE, 20 + place),
            offers: pattern(enough.offers + MORE, 40 + place),
        };
        Self {
            device: array(&pattern(Device::LENGTH, 12), 0),
            contacts: pattern(256 * 9, 1),
            own: pattern(256 * 54, 2),
            carried: pattern(256 * 57, 3),
            tombstones: pattern(sizes.tombstone_rows * 44, 4),
            bad_tags: pattern(sizes.bad_rows * 24, 5),
            own_cells: pattern(sizes.own_cells * crate::CELL, 6),
            carried_cells: pattern(sizes.carried_cells * crate::CELL, 7),
            sessions: (0..sizes.exchanges).map(session).collect(),
            replies: pattern(enough.replies + MORE, 8),
            actions: pattern(enough.actions + MORE, 9),
            answer: pattern(enough.answer + MORE, 10),
            row: pattern(Own::WIDTH, 11),
        }
    }

    /// With a fresh device.
    pub fn fresh(sizes: &Sizes) -> Self {
        let mut areas = Self::untouched(sizes);
        Device::put_fresh(&mut areas.device);
        areas
    }
}

//! Request Three's count, which the source does not say: a clone of it with its tombstones taken out is asked the same terminator.

use super::Source;
use crate::core::convert::verification_out;
use crate::state::Held;
use post::{Prefix, Tag, WindowRow};

impl Source {
    /// A source of its own with the clock, setting, contacts, own rows, carried rows and bad tags of this one, and no tombstone. Its one
    /// exchange is opened for nobody.
    fn without_tombstones(&self) -> Self {
        let mut clone = Self::new(1);
        clone.core.now_s = self.core.now_s;
        clone.core.bad_tags = self.core.bad_tags.clone();
        for contact in &self.device().contacts {
            clone.contact(contact.id.0, verification_out(contact.verification));
            let added = clone.device_mut().contacts.last_mut().expect("just added");
            added.queued = contact.queued.clone();
        }
        let (device, is_carried) = (clone.device_mut(), |held: &Held| matches!(held, Held::Carried { .. }));
        let carried = self.device().held.iter().filter(|(_, held)| is_carried(held));
        device.held = carried.map(|(slot, held)| (*slot, held.clone())).collect();
        device.next_slot = self.device().next_slot;
        device.courier = self.device().courier;
        clone
    }

    fn is_tombstoned(&self, tag: &Tag) -> bool {
        let mut held = self.device().held.values();
        held.any(|held| matches!(held, Held::Tombstone(tombstone) if tombstone.tag == *tag))
    }

    /// How many rows the clone offers a peer that listed these prefixes, in one list, and then sent the empty one with this window. An exchange
    /// can't be cloned, so that the clone's is a fresh one. What the clone offers and no tombstone has must be what this source offered.
    pub(crate) fn searched(&self, peer: u64, listed: &[Prefix], window: &[WindowRow], offers: &[(Tag, u8)]) -> usize {
        let mut clone = self.without_tombstones();
        clone.fresh_exchange(0, peer);
        if !listed.is_empty() {
            let gathered = clone.inventory(0, peer, listed.to_vec(), window);
            assert!(!gathered.malformed, "the clone takes what the source took");
        }
        let raw = clone.inventory(0, peer, Vec::new(), window);
        assert!(!raw.malformed, "the clone ends what the source ended");
        let mut offered = raw.offers();
        let searched = offered.len();
        offered.retain(|(tag, _)| !self.is_tombstoned(tag));
        assert_eq!(
            offered, offers,
            "the clone offers what the source offered, and tombstoned tags"
        );
        searched
    }
}

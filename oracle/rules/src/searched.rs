//! Request Three: the count at the end of an inventory.

use crate::exchange::prefix_of;
use crate::{Rules, Wrong};
use post::{Prefix, Tag};
use std::collections::BTreeSet;

/// Of an own or a carried row.
struct Row {
    tag: Tag,
    copies: u8,
    expiry: u32,
}

impl Rules {
    /// Own rows, never those for this peer, and carried rows.
    fn rows_to_count(&self, peer: u64) -> Vec<Row> {
        let for_peer = self.is(Wrong::CountsOwnForThePeer);
        let own = self.state.own.iter().filter(|row| for_peer || row.contact != peer);
        let own = own.map(|row| Row {
            tag: row.tag,
            copies: row.copies,
            expiry: row.expiry,
        });
        let carried = self.state.carried().map(|(_, _, envelope)| Row {
            tag: envelope.tag,
            copies: envelope.copies,
            expiry: envelope.expiry,
        });
        own.chain(carried).collect()
    }

    /// Right of every row; a switch lets some out by what does not matter.
    fn matters(&self, row: &Row) -> bool {
        match self.wrong {
            Some(Wrong::CountsOffersOnly) => !self.is_tombstoned(&row.tag),
            Some(Wrong::CountsTombstonedOnly) => self.is_tombstoned(&row.tag),
            Some(Wrong::CountsUnexpiredOnly) => row.expiry > self.minute(),
            _ => true,
        }
    }

    /// How many rows would be offered if no tag were tombstoned: those of two copies or more that are not listed.
    pub(crate) fn searched(&self, peer: u64, listed: &[Prefix]) -> usize {
        let fewest = self.unless(Wrong::CountsOneCopy, 2, 1);
        let unlisted = |row: &Row| !listed.contains(&prefix_of(&row.tag)) || self.is(Wrong::CountsListedToo);
        let mut rows = self.rows_to_count(peer);
        rows.retain(|row| row.copies >= fewest && unlisted(row) && self.matters(row));
        match self.wrong {
            Some(Wrong::CountsEachTagOnce) => rows.iter().map(|row| row.tag).collect::<BTreeSet<Tag>>().len(),
            Some(Wrong::CountInOneByte) => rows.len() % 256,
            _ => rows.len(),
        }
    }
}

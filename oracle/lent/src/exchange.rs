//! Inventories, fetches and custody codes.

use crate::custody::{window_rows, wrong_window};
use crate::rows::{BadTag, Carried, Offer, Own};
use crate::settings::{own_put, put, reply, tomb_reply};
use crate::state::{Change, Lent, Outcome, Said, State, Step, refused, said};
use post::{Custody, Prefix, Tag, WindowRow, array};

/// An envelope of an own or a carried row: its header, and its cell as a reply says it.
struct Sent {
    tag: Tag,
    commitment: [u8; 16],
    expiry: u32,
    copies: u8,
    cell: u16,
    length: usize,
}

impl Sent {
    fn reply(&self) -> [u8; 40] {
        let head = [
            &self.tag[..],
            &self.commitment,
            &self.expiry.to_be_bytes(),
            &[self.copies],
        ]
        .concat();
        reply(1, self.cell, &head)
    }
}

impl State<'_> {
    fn own_sent(&self, row: &Own) -> Sent {
        Sent {
            tag: row.tag,
            commitment: rules::commitment(&row.secret),
            expiry: row.expiry,
            copies: row.copies,
            cell: self.reading.own_reply(row.cell),
            length: self.own_ciphertext(row).len(),
        }
    }

    fn carried_sent(&self, row: &Carried) -> Sent {
        Sent {
            tag: row.tag,
            commitment: row.commitment,
            expiry: row.expiry,
            copies: row.copies,
            cell: self.reading.carried_reply(row.cell),
            length: self.carried_ciphertext(row).len(),
        }
    }

    /// Of the own rows that are not for the peer, then of the carried rows, those that are wanted by tag, copies and cell.
    fn envelopes(&self, peer: u64, mut wanted: impl FnMut(&Tag, u8, u16) -> bool) -> Vec<Sent> {
        let mut sent = Vec::new();
        for row in &self.own {
            if row.contact != peer && wanted(&row.tag, row.copies, row.cell) {
                sent.push(self.own_sent(row));
            }
        }
        for row in &self.carried {
            if wanted(&row.tag, row.copies, row.cell) {
                sent.push(self.carried_sent(row));
            }
        }
        sent
    }

    pub fn inventory_of_ours(&self, lent: &Lent, peer: u64) -> Step {
        if lent.answer < 4_096 {
            return refused(1);
        }
        if !self.knows(peer) {
            return refused(2);
        }
        let own = self.own.iter().filter(|row| row.contact != peer).map(|row| row.tag);
        let tags: Vec<Tag> = own.chain(self.carried.iter().map(|row| row.tag)).collect();
        let bytes = tags.iter().flat_map(|tag| array::<8>(tag, 0)).collect();
        (Outcome::wrote(tags.len(), bytes), Change::default())
    }

    pub fn fetch(&self, lent: &Lent, peer: u64, tag: &Tag) -> Step {
        if lent.replies < 61_440 {
            return refused(1);
        }
        if !self.knows(peer) {
            return refused(2);
        }
        let Some(sent) = self.envelopes(peer, |other, _, _| other == tag).into_iter().next() else {
            return said(Said::Missing);
        };
        let mut outcome = Outcome::only(Said::Found { length: sent.length });
        outcome.replies.push(sent.reply());
        (outcome, Change::default())
    }

    /// A prefix fetches the tag of the first row that has it, unless the tag is among the peer's bad tags or among the tombstones. No later row
    /// is looked at.
    fn fetches(&self, window: &[WindowRow], peer: u64) -> Vec<[u8; 40]> {
        let tombstones = self.reading.stopping(self.tombstone_area, self.tombstones.len());
        let stopped = |tag: &Tag| {
            self.bad_tags.contains(&BadTag { peer, tag: *tag }) || tombstones.iter().any(|row| row.tag == *tag)
        };
        let first = |prefix: &Prefix| window.iter().find(|row| row.tag.starts_with(prefix));
        let met = self.listed.iter().filter_map(first);
        met.filter(|row| !stopped(&row.tag))
            .map(|row| reply(0, 0, &row.tag))
            .collect()
    }

    /// What is offered, and for how many rows the tombstones are searched. Tested are whom a row is for, its copies, the listing and then the
    /// tombstones; the count rises where their search begins.
    fn offers(&self, peer: u64) -> (Vec<Sent>, usize) {
        let in_question =
            |tag: &Tag, copies: u8| copies > 1 && !self.listed.iter().any(|prefix| tag.starts_with(prefix));
        let mut searched = 0;
        let sent = self.envelopes(peer, |tag, copies, cell| {
            if !in_question(tag, copies) {
                return false;
            }
            searched += usize::from(self.reading.is_searched(cell));
            !self.tombstones.iter().any(|row| row.tag == *tag)
        });
        let behind = self.reading.searched_behind(self.carried_area, self.carried.len());
        searched += behind.iter().filter(|row| in_question(&row.tag, row.copies)).count();
        (sent, searched)
    }

    /// Fetches for listed prefixes, tombs, then offers.
    fn answered(&self, window: &[WindowRow], peer: u64) -> Step {
        let (sent, searched) = self.offers(peer);
        let mut outcome = Outcome::only(Said::Ended { searched });
        outcome.replies = self.fetches(window, peer);
        for prefix in &self.listed {
            if let Some(row) = self.tombstones.iter().find(|row| row.tag.starts_with(prefix)) {
                outcome.replies.push(tomb_reply(&row.tag, &row.secret));
            }
        }
        let mut offered: Vec<Offer> = Vec::new();
        for mut sent in sent {
            sent.copies /= 2;
            outcome.replies.push(sent.reply());
            let (tag, copies) = (sent.tag, sent.copies);
            match offered.iter_mut().find(|offer| offer.tag == tag) {
                Some(offer) => offer.copies = copies,
                None => offered.push(Offer { tag, copies }),
            }
        }
        let change = Change {
            complete: Some(true),
            listed: Some(Vec::new()),
            offered: Some(offered),
            ..Change::default()
        };
        (outcome, change)
    }

    pub fn inventory(&self, lent: &Lent, window: &[u8], peer: u64, prefixes: &[u8]) -> Step {
        if lent.replies < 61_440 || self.short_exchange(lent) {
            return refused(1);
        }
        if wrong_window(window) || !prefixes.len().is_multiple_of(8) {
            return refused(12);
        }
        if self.strangers(peer, window) {
            return refused(2);
        }
        if self.exchange.peer != Some(peer) {
            return refused(3);
        }
        let new = prefixes.as_chunks::<8>().0;
        if self.exchange.complete || self.listed.len() + new.len() > 512 {
            return said(Said::Malformed);
        }
        if new.is_empty() {
            return self.answered(&window_rows(window), peer);
        }
        let listed = Some([&self.listed, new].concat());
        let change = Change {
            listed,
            ..Change::default()
        };
        (Outcome::only(Said::Done), change)
    }

    /// Copies off the first carried row with the tag, else off the first own row.
    fn handed_over(&self, tag: &Tag, copies: u8) -> Step {
        let (mut carried, mut own) = (self.carried.clone(), self.own.clone());
        if let Some(row) = carried.iter_mut().find(|row| row.tag == *tag) {
            row.copies = row.copies.saturating_sub(copies);
            let outcome = Outcome::actions(vec![put(row.slot)]);
            let carried = Some(carried);
            return (
                outcome,
                Change {
                    carried,
                    ..Change::default()
                },
            );
        }
        if let Some(row) = own.iter_mut().find(|row| row.tag == *tag) {
            row.copies = row.copies.saturating_sub(copies);
            let outcome = Outcome::actions(vec![own_put(row.contact, row.message)]);
            let own = Some(own);
            return (
                outcome,
                Change {
                    own,
                    ..Change::default()
                },
            );
        }
        said(Said::Done)
    }

    pub fn custody_code(&self, lent: &Lent, peer: u64, tag: &Tag, code: Custody) -> Step {
        if self.short_exchange(lent) || self.short_actions(lent) {
            return refused(1);
        }
        if !self.knows(peer) {
            return refused(2);
        }
        if self.exchange.peer != Some(peer) {
            return refused(3);
        }
        let Some(place) = self.offered.iter().position(|offer| offer.tag == *tag) else {
            return said(Said::Done);
        };
        let mut offered = self.offered.clone();
        let copies = offered.remove(place).copies;
        let (outcome, change) = match code {
            Custody::Accepted => self.handed_over(tag, copies),
            _ => said(Said::Done),
        };
        let offered = Some(offered);
        (outcome, Change { offered, ..change })
    }
}

//! Inventories, fetches, custody codes.

use crate::custody::rows_of;
use crate::{Rules, Wrong, commitment, counted, done};
use post::{Action, Answer, Custody, Envelope, Held, Prefix, Reply, Tag, WindowRow};

const MOST_LISTED: usize = 512;

fn starts(tag: &Tag, prefix: &Prefix) -> bool {
    tag[..8] == prefix[..]
}

pub(crate) fn prefix_of(tag: &Tag) -> Prefix {
    tag[..8].try_into().expect("8 of 16")
}

impl Rules {
    /// Own rows by contact as added and message number, never those for this peer, then carried rows by slot.
    fn to_show(&self, peer: u64) -> Vec<Envelope> {
        let for_peer = self.is(Wrong::OwnRowsForThePeerToo);
        let own = self.state.own.iter().filter(|row| for_peer || row.contact != peer);
        let mut shown: Vec<Envelope> = own
            .map(|row| Envelope {
                tag: row.tag,
                commitment: commitment(&row.secret),
                expiry: row.expiry,
                copies: row.copies,
                ciphertext: row.ciphertext.clone(),
            })
            .collect();
        let carried = self.state.carried().map(|(_, _, envelope)| envelope.clone());
        if self.is(Wrong::CarriedBeforeOwn) {
            shown = carried.chain(shown).collect();
        } else {
            shown.extend(carried);
        }
        if self.is(Wrong::ExpiredRowsAreHidden) {
            shown.retain(|envelope| envelope.expiry > self.minute());
        }
        shown
    }

    pub(crate) fn is_tombstoned(&self, tag: &Tag) -> bool {
        let bytes = self.unless(Wrong::TombstonedByPrefix, 16, 8);
        self.state
            .tombstones()
            .any(|row| row.held.tag()[..bytes] == tag[..bytes])
    }

    pub(crate) fn inventory_of_ours(&self, peer: u64) -> Answer {
        let mut shown = self.to_show(peer);
        if self.is(Wrong::OurInventoryHidesTombstoned) {
            shown.retain(|envelope| !self.is_tombstoned(&envelope.tag));
        }
        if self.is(Wrong::OurInventoryNeedsCopies) {
            shown.retain(|envelope| envelope.copies > 1);
        }
        Answer::Listed(shown.iter().map(|envelope| prefix_of(&envelope.tag)).collect())
    }

    pub(crate) fn fetch(&mut self, peer: u64, tag: &Tag) -> Answer {
        let found = self.to_show(peer).into_iter().find(|envelope| envelope.tag == *tag);
        if self.is(Wrong::FetchTakesACopy) && found.is_some() {
            self.take_off(tag, 1);
        }
        done(found.map(Reply::Envelope).into_iter().collect(), Vec::new())
    }

    fn is_bad(&self, peer: u64, tag: &Tag) -> bool {
        match self.wrong {
            Some(Wrong::FetchesBadTags) => false,
            Some(Wrong::BadForEveryPeer) => self.state.bad.iter().any(|(_, bad)| bad == tag),
            _ => self.state.bad.contains(&(peer, *tag)),
        }
    }

    /// Request Two: a window tag that equals the tag of a tombstone, whatever its expiry, brings no fetch.
    fn is_not_fetched(&self, tag: &Tag) -> bool {
        let mut tombstones = self.state.tombstones();
        match self.wrong {
            Some(Wrong::FetchesTombstoned) => false,
            Some(Wrong::FetchTombstonedByPrefix) => tombstones.any(|row| starts(row.held.tag(), &prefix_of(tag))),
            Some(Wrong::PastTombstonesLetFetch) => {
                tombstones.any(|row| row.held.tag() == tag && row.held.expiry() > self.minute())
            }
            Some(Wrong::OnlyTheSentTombStops) => {
                let sent = tombstones.find(|row| starts(row.held.tag(), &prefix_of(tag)));
                sent.is_some_and(|row| row.held.tag() == tag)
            }
            _ => tombstones.any(|row| row.held.tag() == tag),
        }
    }

    /// A prefix meets the first window row in key order. If its tag is bad for this peer, or tombstoned, there is no fetch and no second look.
    fn fetches(&self, rows: &[WindowRow], peer: u64, listed: &[Prefix]) -> Vec<Reply> {
        let good = |row: &&WindowRow| !self.is_bad(peer, &row.tag);
        let alive = |row: &&WindowRow| !self.is_not_fetched(&row.tag);
        let mut replies = Vec::new();
        for prefix in listed {
            let mut meeting = rows.iter().filter(|row| starts(&row.tag, prefix));
            let met = match self.wrong {
                Some(Wrong::LooksPastABadRow) => meeting.find(good),
                Some(Wrong::LooksPastATombstonedRow) => meeting.find(alive),
                Some(Wrong::LastWindowRow) => meeting.next_back(),
                _ => meeting.next(),
            };
            if let Some(row) = met.filter(good).filter(alive) {
                let reply = Reply::Fetch(row.tag);
                if !(self.is(Wrong::RepeatedFetchesOnce) && replies.contains(&reply)) {
                    replies.push(reply);
                }
            }
        }
        replies
    }

    /// Of the tombstones whose tag starts so, the one of lowest slot, whether the prefix was fetched or not.
    fn tombs(&self, rows: &[WindowRow], listed: &[Prefix]) -> Vec<Reply> {
        let mut replies = Vec::new();
        for prefix in listed {
            let first = rows.iter().find(|row| starts(&row.tag, prefix));
            if self.is(Wrong::NoTombWithoutTheFetch) && first.is_some_and(|row| self.is_not_fetched(&row.tag)) {
                continue;
            }
            let mut found = self.state.tombstones().filter(|row| starts(row.held.tag(), prefix));
            let found = if self.is(Wrong::TombOfTheHighestSlot) {
                found.last()
            } else {
                found.next()
            };
            if let Some(Held::Tombstone { tag, secret, .. }) = found.map(|row| &row.held) {
                replies.push(Reply::Tomb(*tag, *secret));
            }
        }
        replies
    }

    /// Half of the copies, where there are two or more, of what is neither tombstoned nor listed.
    fn offers(&self, peer: u64, listed: &[Prefix]) -> Vec<Envelope> {
        let mut offers = Vec::new();
        for mut envelope in self.to_show(peer) {
            let few = envelope.copies <= self.unless(Wrong::OneCopyIsOffered, 1, 0);
            let gone = self.is_tombstoned(&envelope.tag) && !self.is(Wrong::OffersTombstoned);
            let seen = listed.contains(&prefix_of(&envelope.tag)) && !self.is(Wrong::OffersListed);
            if few || gone || seen {
                continue;
            }
            let up = self.is(Wrong::OfferRoundsUp) || self.is(Wrong::OneCopyIsOffered);
            envelope.copies = if up {
                envelope.copies.div_ceil(2)
            } else {
                envelope.copies / 2
            };
            offers.push(envelope);
        }
        offers
    }

    fn answered(&mut self, window: &[u8], exchange: usize, peer: u64) -> Answer {
        let listed = std::mem::take(&mut self.state.exchanges[exchange].listed);
        let offers = self.offers(peer, &listed);
        let searched = self.searched(peer, &listed);
        let rows = rows_of(window);
        let fetches = self.fetches(&rows, peer, &listed);
        let tombs = self.tombs(&rows, &listed);
        let mut replies = if self.is(Wrong::TombsBeforeFetches) {
            [tombs, fetches].concat()
        } else {
            [fetches, tombs].concat()
        };
        let earlier = self.is(Wrong::EarlierOfferStays);
        let open = &mut self.state.exchanges[exchange];
        open.complete = true;
        open.offered.clear();
        for envelope in &offers {
            let offer = open.offered.entry(envelope.tag).or_insert(envelope.copies);
            if !earlier {
                *offer = envelope.copies;
            }
        }
        if self.is(Wrong::CopiesOffWhenOffered) {
            for envelope in &offers {
                self.take_off(&envelope.tag, envelope.copies);
            }
        }
        replies.extend(offers.into_iter().map(Reply::Envelope));
        let searched = self.unless(Wrong::CountsAllReplies, searched, replies.len());
        counted(false, replies, searched)
    }

    /// Of a list that is gathered or malformed the count is 0. The switch counts all the same.
    fn not_searched(&self, wrong: Wrong, exchange: usize, peer: u64) -> usize {
        let listed = &self.state.exchanges[exchange].listed;
        self.unless(wrong, 0, self.searched(peer, listed))
    }

    pub(crate) fn inventory(&mut self, window: &[u8], exchange: usize, peer: u64, prefixes: &[u8]) -> Answer {
        let prefixes: Vec<Prefix> = prefixes.chunks_exact(8).map(|row| post::array(row, 0)).collect();
        let most = match self.wrong {
            Some(Wrong::ListedUpTo513) => MOST_LISTED + 1,
            Some(Wrong::ListedUpTo511) => MOST_LISTED - 1,
            _ => MOST_LISTED,
        };
        let open = &self.state.exchanges[exchange];
        let over = match self.wrong {
            Some(Wrong::CountsOneListOnly) => prefixes.len() > most,
            _ => open.listed.len() + prefixes.len() > most,
        };
        let after_end = open.complete && !(self.is(Wrong::EmptyAfterTheEndIsFine) && prefixes.is_empty());
        if over || after_end {
            let searched = self.not_searched(Wrong::CountWhenMalformed, exchange, peer);
            if self.is(Wrong::MalformedClosesTheExchange) {
                self.state.exchanges[exchange] = Default::default();
            }
            return counted(true, Vec::new(), searched);
        }
        if prefixes.is_empty() {
            return self.answered(window, exchange, peer);
        }
        self.state.exchanges[exchange].listed.extend(prefixes);
        let searched = self.not_searched(Wrong::CountOnAListing, exchange, peer);
        counted(false, Vec::new(), searched)
    }

    /// The code clears the offer; only Accepted takes the handed copies off.
    pub(crate) fn custody_code(&mut self, exchange: usize, tag: &Tag, code: Custody) -> Answer {
        let keeps = self.is(Wrong::OtherCodesKeepTheOffer) && code != Custody::Accepted;
        let offered = &mut self.state.exchanges[exchange].offered;
        let handed = if keeps { None } else { offered.remove(tag) };
        let any_code = self.is(Wrong::AnyCodeTakesCopies);
        let mut actions = Vec::new();
        if let Some(copies) = handed
            && (code == Custody::Accepted || any_code)
        {
            actions.extend(self.take_off(tag, copies));
        }
        done(Vec::new(), actions)
    }

    /// Off the carried row of lowest slot with the tag, else off the own row; stopping at 0.
    fn take_off(&mut self, tag: &Tag, handed: u8) -> Option<Action> {
        let wraps = self.is(Wrong::CopiesWrapBelowZero);
        let less = |copies: u8| {
            if wraps {
                copies.wrapping_sub(handed)
            } else {
                copies.saturating_sub(handed)
            }
        };
        let own_first = self.is(Wrong::CopiesOffOwnFirst) && self.state.own.iter().any(|row| row.tag == *tag);
        if !own_first {
            for row in &mut self.state.held {
                if let Held::Carried { envelope, .. } = &mut row.held
                    && envelope.tag == *tag
                {
                    envelope.copies = less(envelope.copies);
                    return Some(Action::Put { slot: row.slot });
                }
            }
        }
        let row = self.state.own.iter_mut().find(|row| row.tag == *tag)?;
        row.copies = less(row.copies);
        Some(Action::OwnPut {
            contact: row.contact,
            message: row.message,
        })
    }
}

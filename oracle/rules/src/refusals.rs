//! Document 01's table of refusals: a condition for each number, over all calls, and their order.

use crate::custody::rows_of;
use crate::page;
use crate::tombs::LIMIT;
use crate::tombs::Met;
use crate::{LAST_SLOT, Rules, Wrong};
use post::{Call, ChainRow, Kind, SkippedRow, WindowRow};

const ORDER: [u8; 13] = [13, 1, 12, 2, 3, 8, 7, 10, 11, 4, 5, 6, 9];

const OWN_SIZES: [usize; 8] = [48, 80, 144, 272, 528, 1040, 2064, 4064];

/// A tombstone that a call would add: by the carried row of a place, which turns, or stored.
#[derive(PartialEq, Eq)]
enum Added {
    Turned(usize),
    Stored,
}

impl Rules {
    /// Two numbers change places under a switch.
    fn order(&self) -> [u8; 13] {
        let mut order = ORDER;
        if let Some((one, two)) = self.wrong.and_then(Wrong::swapped) {
            let at = |number| ORDER.iter().position(|other| *other == number);
            if let (Some(one), Some(two)) = (at(one), at(two)) {
                order.swap(one, two);
            }
        }
        order
    }

    pub(crate) fn refusal(&self, call: &Call) -> Option<u8> {
        self.order().into_iter().find(|number| match number {
            1 => self.is_short(call),
            2 => self.is_unknown(call),
            3 => self.is_not_open(call),
            4 => self.no_cell(call),
            5 => self.no_tombstone_row(call),
            6 => self.no_slot(call),
            7 => self.out_of_range(call),
            8 => self.unreadable(call),
            9 => self.no_bad_row(call),
            10 => self.message_there(call),
            11 => self.wrong_size(call),
            12 => self.wrong_rows(call),
            _ => self.too_many_contacts(call),
        })
    }

    /// 1: an area of the call is shorter than document 01 asks.
    fn is_short(&self, call: &Call) -> bool {
        let Some(lent) = call.areas() else {
            return false;
        };
        let (cells, rows) = (self.sizes.carried_cells, self.sizes.tombstone_rows);
        let replies = lent.replies < self.unless(Wrong::RepliesOneByteShort, 1536 * 40, 1536 * 40 - 1);
        let prefixes = lent.prefixes < self.unless(Wrong::PrefixesOneByteShort, 512 * 8, 512 * 8 - 1);
        let offers = lent.offers < self.unless(Wrong::OffersOneByteShort, 512 * 17, 512 * 17 - 1);
        let actions = lent.actions < 13 * (self.unless(Wrong::ActionsFor511, 512, 511) + rows);
        let file = 10 + 2122 * cells + 49 * rows;
        let answer = |bytes: usize| lent.answer < bytes - self.unless(Wrong::AnswersOneByteShort, 0, 1);
        let exchange = prefixes || offers;
        match call.kind() {
            Kind::Envelope => replies || (actions && !self.is(Wrong::EnvelopeNeedsNoActions)),
            Kind::Inventory => replies || exchange,
            Kind::Fetch => replies,
            Kind::Opened => replies || actions,
            Kind::FreshExchange => exchange,
            Kind::CustodyCode => exchange || actions,
            Kind::Tomb | Kind::StoredTombstone | Kind::Maintenance => actions,
            Kind::InventoryOfOurs => answer(512 * 8),
            Kind::Window => answer(500 * 6),
            Kind::RowBlob => answer(2110),
            Kind::Save => answer(file),
            Kind::Page => answer(self.unless(Wrong::AreaOf1619, page::BYTES, page::BYTES - 1)),
            _ => false,
        }
    }

    /// 2: the contact, or one in a window row, isn't known.
    fn is_unknown(&self, call: &Call) -> bool {
        let window = match call {
            Call::Envelope { window, .. } | Call::Inventory { window, .. } => &window[..],
            _ => &[],
        };
        let in_window = !self.is(Wrong::WindowContactsNeedNotBeKnown);
        call.peer().is_some_and(|peer| !self.knows(peer))
            || (in_window && rows_of(window).iter().any(|row| !self.knows(row.contact)))
    }

    /// 3: the exchange was opened for another contact or for none.
    fn is_not_open(&self, call: &Call) -> bool {
        let (Call::Inventory { exchange, peer, .. } | Call::CustodyCode { exchange, peer, .. }) = call else {
            return false;
        };
        let opened_for = self.state.exchanges[*exchange].peer;
        if self.is(Wrong::AnyOpenExchangeWillDo) {
            return opened_for.is_none();
        }
        opened_for != Some(*peer)
    }

    /// 4: a row would be added and its cells are all used.
    fn no_cell(&self, call: &Call) -> bool {
        let carried = self.state.carried().count();
        match call {
            Call::Envelope {
                window, peer, envelope, ..
            } => {
                let used = carried + self.unless(Wrong::OneCellIsLeftOut, 0, 1) >= self.sizes.carried_cells;
                let none_yet = self.is(Wrong::NoCellOnAFreshArea) && self.state.next_slot == 0;
                let adds = self.is(Wrong::NoCellWhateverTheCode) || self.would_carry(window, *peer, envelope);
                (used || none_yet) && adds
            }
            Call::OwnEnvelope(new) => {
                let adds = self.is(Wrong::NoCellBeforeNoEnvelope) || !self.no_envelope(&new.ciphertext);
                self.state.own.len() >= self.sizes.own_cells && adds
            }
            Call::Load { file } => {
                let rows = self.readable(file).map_or(Vec::new(), |(_, rows)| rows);
                rows.iter().filter(|row| row.held.is_carried()).count() > self.sizes.carried_cells
            }
            _ => false,
        }
    }

    /// The tombstone that the call would add.
    fn added_tombstone(&self, call: &Call) -> Option<Added> {
        let stored = |tag| self.would_store(tag).then_some(Added::Stored);
        match call {
            Call::Tomb { tag, secret, .. } => match self.met(tag, secret) {
                Met::Carried(place) => Some(Added::Turned(place)),
                Met::Own(_) => stored(tag),
                _ => None,
            },
            Call::Opened { tag, .. } | Call::StoredTombstone { tag, .. } => stored(tag),
            _ => None,
        }
    }

    /// 5: a tombstone would be added and, after any deletion, all R rows are used.
    fn no_tombstone_row(&self, call: &Call) -> bool {
        let rows = self.sizes.tombstone_rows;
        let there = self.state.tombstones().count();
        if let Call::Load { file } = call {
            let loaded = self.readable(file).map_or(Vec::new(), |(_, rows)| rows);
            return loaded.iter().filter(|row| !row.held.is_carried()).count() > rows;
        }
        let (gone, before) = match self.added_tombstone(call) {
            Some(Added::Turned(_)) if self.is(Wrong::TurnedRowNeedsNoRow) => return false,
            Some(Added::Turned(_)) if self.is(Wrong::TurnedRowRefusedAtTheLimit) && there >= LIMIT => return true,
            Some(Added::Turned(place)) => (self.gone_for(place).len(), Wrong::NoRowBeforeATurnedRowsDeletion),
            Some(Added::Stored) => (self.displaced().iter().len(), Wrong::NoRowBeforeTheDeletion),
            None => return false,
        };
        there - self.unless(before, gone, 0) >= rows
    }

    /// 6: a new slot is needed and next slot is 2^64 − 1.
    fn no_slot(&self, call: &Call) -> bool {
        let last = self.unless(Wrong::LastSlotIsOneLower, LAST_SLOT, LAST_SLOT - 1);
        let needs = match call {
            Call::Envelope {
                window, peer, envelope, ..
            } => self.is(Wrong::NoSlotWhateverTheCode) || self.would_carry(window, *peer, envelope),
            _ => {
                let turned = self.is(Wrong::TurnedRowNeedsASlot);
                self.added_tombstone(call)
                    .is_some_and(|added| added == Added::Stored || turned)
            }
        };
        needs && self.state.next_slot >= last
    }

    /// 7: configuration outside its range.
    fn out_of_range(&self, call: &Call) -> bool {
        let Call::Setting { copies, lifetime, .. } = call else {
            return false;
        };
        let most = self.unless(Wrong::CopiesUpTo17, 16, 17);
        let least = self.unless(Wrong::LifetimeFrom59, 60, 59);
        let longest = self.unless(Wrong::LifetimeUpTo10081, 10_080, 10_081);
        let fewest = self.unless(Wrong::CopiesFrom0, 1, 0);
        *copies < fewest || *copies > most || *lifetime < least || *lifetime > longest
    }

    /// 8: the saved file cannot be read.
    fn unreadable(&self, call: &Call) -> bool {
        matches!(call, Call::Load { file } if self.readable(file).is_none())
    }

    /// 9: a new bad tag and no row left.
    fn no_bad_row(&self, call: &Call) -> bool {
        let Call::Failed { peer, tag } = call else {
            return false;
        };
        let new = !self.state.bad.contains(&(*peer, *tag)) || self.is(Wrong::BadTagAgainNeedsARow);
        new && self.state.bad.len() >= self.sizes.bad_rows
    }

    /// 10: message number already there.
    fn message_there(&self, call: &Call) -> bool {
        let Call::OwnEnvelope(new) = call else {
            return false;
        };
        let any = self.is(Wrong::MessageOfAnyContact);
        self.state
            .own
            .iter()
            .any(|row| (any || row.contact == new.contact) && row.message == new.message)
    }

    /// 11: own ciphertext of another size.
    fn wrong_size(&self, call: &Call) -> bool {
        let Call::OwnEnvelope(new) = call else {
            return false;
        };
        let without_last = self.is(Wrong::OwnSizeOf4048IsRefused) && new.ciphertext.len() == 4064;
        !OWN_SIZES.contains(&new.ciphertext.len()) || without_last
    }

    /// 12: window, prefix, skipped or chain rows of a wrong shape.
    fn wrong_rows(&self, call: &Call) -> bool {
        match call {
            Call::Envelope { window, .. } => self.wrong_window(window),
            Call::Inventory { window, prefixes, .. } => {
                let whole = prefixes.len().is_multiple_of(8) || self.is(Wrong::PrefixesNeedNotBeWhole);
                self.wrong_window(window) || !whole
            }
            Call::Window { skipped, chains, .. } => self.wrong_keys(skipped, chains),
            _ => false,
        }
    }

    fn wrong_window(&self, window: &[u8]) -> bool {
        let rows = rows_of(window);
        let rises = |one: &WindowRow, two: &WindowRow| {
            one.key() < two.key() || (self.is(Wrong::EqualKeysRise) && one.key() == two.key())
        };
        let in_order = rows.windows(2).all(|pair| rises(&pair[0], &pair[1])) || self.is(Wrong::KeysNeedNotRise);
        !window.len().is_multiple_of(30) || rows.iter().any(|row| row.dir != b'I' && row.dir != b'R') || !in_order
    }

    fn wrong_keys(&self, skipped: &[u8], chains: &[u8]) -> bool {
        let highest = self.unless(Wrong::NextMustBeBelow2To32, 1 << 32, (1 << 32) - 1);
        let most = self.unless(Wrong::SkippedUpTo499, 500, 499);
        let mut directions: Vec<u8> = skipped.chunks_exact(SkippedRow::WIDTH).map(|row| row[0]).collect();
        let rows: Vec<ChainRow> = chains.chunks_exact(ChainRow::WIDTH).map(ChainRow::read).collect();
        directions.extend(rows.iter().map(|row| row.dir));
        !skipped.len().is_multiple_of(6)
            || !chains.len().is_multiple_of(10)
            || skipped.len() / 6 > most
            || directions.iter().any(|dir| !b"IR".contains(dir))
            || rows.iter().any(|row| row.next > highest)
    }

    /// 13: a 257th contact. A call meets it only here; the rest of it is the drill program's.
    fn too_many_contacts(&self, call: &Call) -> bool {
        let most = self.unless(Wrong::ContactsUpTo255, 256, 255);
        let altered = |id: u64| self.knows(id) && !self.is(Wrong::AlteringNeedsAPlace);
        matches!(call, Call::Contact { id, .. } if !altered(*id) && self.state.contacts.len() >= most)
    }
}

//! The refusals that are decided before the source is asked: each call's tests in document 01's order.
//! 4, 5 and 6 of rows that would be added come after the source has answered (`guard`).

use crate::Reference;
use crate::chain::{INNER_BUCKETS, TAG_LEN};
use post::{Areas, Call, ChainRow, Kind, SkippedRow, WindowRow};

const CONTACTS: usize = 256;

/// The first number whose condition holds.
fn first(tests: &[(u8, bool)]) -> Option<u8> {
    tests.iter().find(|(_, holds)| *holds).map(|(number, _)| *number)
}

pub(crate) fn rows(area: &[u8], width: usize) -> impl Iterator<Item = &[u8]> {
    area.chunks_exact(width)
}

pub(crate) fn window_rows(area: &[u8]) -> Vec<WindowRow> {
    rows(area, WindowRow::WIDTH).map(WindowRow::read).collect()
}

fn is_direction(byte: u8) -> bool {
    matches!(byte, b'I' | b'R')
}

fn wrong_window(area: &[u8]) -> bool {
    let rows = window_rows(area);
    !area.len().is_multiple_of(WindowRow::WIDTH)
        || rows.iter().any(|row| !is_direction(row.dir))
        || rows.windows(2).any(|pair| pair[0].key() >= pair[1].key())
}

fn wrong_keys(skipped: &[u8], chains: &[u8]) -> bool {
    !skipped.len().is_multiple_of(SkippedRow::WIDTH)
        || !chains.len().is_multiple_of(ChainRow::WIDTH)
        || skipped.len() / SkippedRow::WIDTH > 500
        || rows(skipped, SkippedRow::WIDTH).any(|row| !is_direction(row[0]))
        || rows(chains, ChainRow::WIDTH)
            .map(ChainRow::read)
            .any(|row| !is_direction(row.dir) || row.next > 1 << 32)
}

fn own_bucket(ciphertext: &[u8]) -> bool {
    INNER_BUCKETS.iter().any(|bucket| bucket + TAG_LEN == ciphertext.len())
}

impl Reference {
    fn short(&self, call: &Call) -> bool {
        let Some(areas) = call.areas() else {
            return false;
        };
        let full = Areas::enough(&self.sizes);
        let replies = areas.replies < full.replies;
        let exchange = areas.prefixes < full.prefixes || areas.offers < full.offers;
        let actions = areas.actions < full.actions;
        match call.kind() {
            Kind::FreshExchange => exchange,
            Kind::Envelope | Kind::Opened => replies || actions,
            Kind::Inventory => replies || exchange,
            Kind::Fetch => replies,
            Kind::CustodyCode => exchange || actions,
            Kind::Tomb | Kind::StoredTombstone | Kind::Maintenance => actions,
            Kind::InventoryOfOurs => areas.answer < 4_096,
            Kind::Window => areas.answer < 3_000,
            Kind::RowBlob => areas.answer < 2_110,
            Kind::Save => areas.answer < self.file_bytes(),
            _ => false,
        }
    }

    fn file_bytes(&self) -> usize {
        10 + 2_122 * self.sizes.carried_cells + 49 * self.sizes.tombstone_rows
    }

    fn unknown(&self, call: &Call) -> bool {
        call.peer().is_some_and(|peer| !self.source.knows(peer))
    }

    fn unknown_in(&self, window: &[u8]) -> bool {
        window_rows(window).iter().any(|row| !self.source.knows(row.contact))
    }

    fn not_open(&self, exchange: usize, peer: u64) -> bool {
        self.source.exchange_peer(exchange) != Some(peer)
    }

    pub(crate) fn refusal(&self, call: &Call) -> Option<u8> {
        if self.short(call) {
            return Some(1);
        }
        let unknown = self.unknown(call);
        match call {
            Call::Contact { id, .. } => {
                let beyond = !self.source.knows(*id) && self.source.contact_count() >= CONTACTS;
                first(&[(13, beyond)])
            }
            Call::Envelope { window, .. } => {
                first(&[(12, wrong_window(window)), (2, unknown || self.unknown_in(window))])
            }
            Call::Inventory {
                window,
                exchange,
                peer,
                prefixes,
                ..
            } => first(&[
                (12, wrong_window(window) || !prefixes.len().is_multiple_of(8)),
                (2, unknown || self.unknown_in(window)),
                (3, self.not_open(*exchange, *peer)),
            ]),
            Call::CustodyCode { exchange, peer, .. } => first(&[(2, unknown), (3, self.not_open(*exchange, *peer))]),
            Call::Failed { peer, tag } => {
                let full = self.source.bad_count() >= self.sizes.bad_rows;
                first(&[(2, unknown), (9, full && !self.source.is_bad(*peer, tag))])
            }
            Call::OwnEnvelope(new) => first(&[
                (2, unknown),
                (10, !unknown && self.source.has_message(new.contact, new.message)),
                (11, !own_bucket(&new.ciphertext)),
            ]),
            Call::Window { skipped, chains, .. } => first(&[(12, wrong_keys(skipped, chains))]),
            _ => first(&[(2, unknown)]),
        }
    }
}

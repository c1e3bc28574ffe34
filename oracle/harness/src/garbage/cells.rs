//! Rows whose cell does not count: calls that are after them, and which of them a call met.

use crate::generate::Rng;
use lent::{Areas, CELL, COUNTED, Carried, ContactRow, Device, NO_CELL, Outcome, Own, Said, cell_count, table};
use post::{Call, Custody, Sizes, Tag, array};

/// The first carried cell to which 256 cannot be added in two bytes.
const WRAPS: u16 = NO_CELL - COUNTED + 1;

/// The rows of the areas.
struct Rows<'a> {
    areas: &'a Areas,
    contacts: Vec<ContactRow>,
    own: Vec<Own>,
    carried: Vec<Carried>,
}

/// The cell does not count, though it lies in the area and the row has a length.
fn is_past(cells: &[u8], cell: u16, len: u16) -> bool {
    cell >= COUNTED && len > 0 && usize::from(cell) * CELL < cells.len()
}

impl<'a> Rows<'a> {
    fn of(areas: &'a Areas) -> Self {
        let device = Device::read(&areas.device);
        Self {
            areas,
            contacts: table(&areas.contacts, device.contacts),
            own: table(&areas.own, device.own),
            carried: table(&areas.carried, device.carried),
        }
    }

    fn own_past(&self, row: &Own) -> bool {
        is_past(&self.areas.own_cells, row.cell, row.len)
    }

    fn carried_past(&self, row: &Carried) -> bool {
        is_past(&self.areas.carried_cells, row.cell, row.len)
    }

    /// The row that a fetch of a tag finds: an own row, else a carried one.
    fn fetched(&self, peer: u64, tag: &Tag) -> (Option<&Own>, Option<&Carried>) {
        let own = self.own.iter().find(|row| row.contact != peer && row.tag == *tag);
        let carried = self.carried.iter().find(|row| row.tag == *tag);
        (own, carried.filter(|_| own.is_none()))
    }
}

/// A fetch or the row blob of such a row, if there is one.
pub fn call_after_one(areas: &Areas, sizes: &Sizes, rng: &mut Rng) -> Option<Call> {
    let rows = Rows::of(areas);
    let lent = post::Areas::enough(sizes);
    let peer = rng.pick_or(&rows.contacts, ContactRow { id: 5, verification: 0 }).id;
    let fetch = |tag: Tag| Call::Fetch { areas: lent, peer, tag };
    let mut calls: Vec<Call> = Vec::new();
    for row in rows.own.iter().filter(|row| rows.own_past(row)) {
        calls.push(fetch(row.tag));
    }
    for row in rows.carried.iter().filter(|row| rows.carried_past(row)) {
        calls.push(fetch(row.tag));
        calls.push(Call::RowBlob {
            areas: lent,
            slot: row.slot,
        });
    }
    (!calls.is_empty()).then(|| rng.pick(&calls))
}

const FETCH_OWN: &str = "fetch of an own row";
const FETCH_CARRIED: &str = "fetch of a carried row";
const OFFER_OWN: &str = "offer of an own row";
const OFFER_CARRIED: &str = "offer of a carried row";
const REPLY_WRAPS: &str = "reply for a carried row of cell 65,280 or more";
const FULL: &str = "envelope tested for Full";
const ROW_BLOB: &str = "row blob";
const SAVE: &str = "save";

#[cfg(feature = "library")]
pub const ALL: [&str; 8] = [
    FETCH_OWN,
    FETCH_CARRIED,
    OFFER_OWN,
    OFFER_CARRIED,
    REPLY_WRAPS,
    FULL,
    ROW_BLOB,
    SAVE,
];

impl Rows<'_> {
    fn met_by_fetch(&self, peer: u64, tag: &Tag) -> Vec<(&'static str, bool)> {
        let (own, carried) = self.fetched(peer, tag);
        vec![
            (FETCH_OWN, own.is_some_and(|row| self.own_past(row))),
            (FETCH_CARRIED, carried.is_some_and(|row| self.carried_past(row))),
            (REPLY_WRAPS, carried.is_some_and(|row| row.cell >= WRAPS)),
        ]
    }

    fn met_by_offers(&self, replies: &[[u8; 40]]) -> Vec<(&'static str, bool)> {
        let without = replies
            .iter()
            .filter(|row| row[0] == 1 && row[1..3] == NO_CELL.to_be_bytes());
        let tags: Vec<Tag> = without.map(|row| array(row, 3)).collect();
        let own = self.own.iter().filter(|row| tags.contains(&row.tag));
        let carried = self.carried.iter().filter(|row| tags.contains(&row.tag));
        vec![
            (OFFER_OWN, own.into_iter().any(|row| self.own_past(row))),
            (OFFER_CARRIED, carried.clone().any(|row| self.carried_past(row))),
            (REPLY_WRAPS, carried.into_iter().any(|row| row.cell >= WRAPS)),
        ]
    }

    /// What a call that was not refused met.
    fn met(&self, call: &Call, outcome: &Outcome) -> Vec<(&'static str, bool)> {
        let past = |row: &Carried| self.carried_past(row);
        match call {
            Call::Fetch { peer, tag, .. } => self.met_by_fetch(*peer, tag),
            Call::Inventory { .. } => self.met_by_offers(&outcome.replies),
            Call::Envelope { .. } => {
                let code = outcome.replies.first().and_then(|row| Custody::of(row[19]));
                let tested = matches!(code, Some(Custody::Full | Custody::Accepted));
                vec![(FULL, tested && self.carried.iter().any(past))]
            }
            Call::RowBlob { slot, .. } => {
                let row = self.carried.iter().find(|row| row.slot == *slot);
                vec![(ROW_BLOB, row.is_some_and(past))]
            }
            Call::Save { .. } => {
                let mut saved = self.carried.iter().take(cell_count(&self.areas.carried_cells));
                vec![(SAVE, saved.any(past))]
            }
            _ => Vec::new(),
        }
    }
}

/// Such rows that a call met; the areas are those after it.
pub fn met(areas: &Areas, call: &Call, outcome: &Outcome) -> Vec<(&'static str, bool)> {
    if matches!(outcome.said, Said::Refused(_)) {
        return Vec::new();
    }
    Rows::of(areas).met(call, outcome)
}

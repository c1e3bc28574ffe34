//! Counts on areas that no call left: for which rows an inventory's end searched the tombstones.

use super::reach::Met;
use lent::{Areas, COUNTED, Carried, Device, Exchange, Outcome, Own, Said, Tombstone, table};
use post::{Call, Prefix, Tag};

/// A row that may be offered: tag, copies and cell.
type Row = (Tag, u8, u16);

/// What an inventory meets; the areas are those before it.
pub struct Before {
    device: Device,
    /// As the exchange says it, which may be more than fit.
    listed_count: usize,
    listed: Vec<Prefix>,
    /// Own rows that are not for the peer, then carried rows.
    rows: Vec<Row>,
    /// Carried rows behind the count.
    behind: Vec<Row>,
    tombstones: Vec<Tombstone>,
}

fn carried_row(row: &Carried) -> Row {
    (row.tag, row.copies, row.cell)
}

impl Before {
    /// If the call is an inventory.
    pub fn of(areas: &Areas, call: &Call) -> Option<Self> {
        let Call::Inventory { exchange, peer, .. } = call else {
            return None;
        };
        let device = Device::read(&areas.device);
        let session = areas.sessions.get(*exchange)?;
        let (_, listed, _) = session.view();
        let own: Vec<Own> = table(&areas.own, device.own);
        let own = own.iter().filter(|row| row.contact != *peer);
        let carried: Vec<Carried> = table(&areas.carried, usize::MAX);
        let (counted, behind) = carried.split_at(device.carried.min(carried.len()));
        Some(Self {
            device,
            listed_count: Exchange::read(&session.exchange).listed,
            listed,
            rows: own
                .map(|row| (row.tag, row.copies, row.cell))
                .chain(counted.iter().map(carried_row))
                .collect(),
            behind: behind.iter().map(carried_row).collect(),
            tombstones: table(&areas.tombstones, device.tombstones),
        })
    }

    fn in_question(&self, (tag, copies, _): &Row) -> bool {
        *copies > 1 && !self.listed.iter().any(|prefix| tag.starts_with(prefix))
    }

    fn counts(&self, holds: impl Fn(&Row) -> bool) -> bool {
        self.rows.iter().any(|row| self.in_question(row) && holds(row))
    }

    fn counts_twice(&self) -> bool {
        let counted: Vec<&Row> = self.rows.iter().filter(|row| self.in_question(row)).collect();
        (1..counted.len()).any(|place| counted[..place].iter().any(|row| row.0 == counted[place].0))
    }

    fn is_tombstoned(&self, tag: &Tag) -> bool {
        self.tombstones.iter().any(|row| row.tag == *tag)
    }
}

const ABOVE: &str = "above the offers";
const OFFERS: &str = "the offers";
const NONE: &str = "0 though rows are there";
const TWICE: &str = "two rows of one tag";
const NO_CELL: &str = "a row whose cell does not count";
const TOMBSTONED: &str = "a tombstoned row whose cell does not count";
const BEHIND: &str = "no row behind the count of carried rows";
const ROWS: &str = "where the count of carried or own rows is above the rows";
const LISTED: &str = "where the count of listed prefixes is above 512";
const MANY: &str = "above 255";
const GATHERED: &str = "0 for a list that is gathered though rows are there";
const MALFORMED: &str = "0 for a malformed inventory though rows are there";

#[cfg(feature = "library")]
pub const ALL: [&str; 12] = [
    ABOVE, OFFERS, NONE, TWICE, NO_CELL, TOMBSTONED, BEHIND, ROWS, LISTED, MANY, GATHERED, MALFORMED,
];

/// So many rows fit into the table of carried and into that of own rows.
const FIT: usize = 256;
const MOST_LISTED: usize = 512;
const ONE_BYTE: usize = 255;

impl Before {
    /// What an end that is done counted.
    fn ended(&self, outcome: &Outcome) -> Met {
        let (searched, device) = (outcome.searched(), self.device);
        let offers = outcome.replies.iter().filter(|row| row[0] == 1).count();
        let without_cell = |row: &Row| row.2 >= COUNTED;
        vec![
            (ABOVE, searched > offers),
            (OFFERS, searched > 0 && searched == offers),
            (NONE, searched == 0 && !self.rows.is_empty()),
            (TWICE, self.counts_twice()),
            (NO_CELL, self.counts(without_cell)),
            (
                TOMBSTONED,
                self.counts(|row| without_cell(row) && self.is_tombstoned(&row.0)),
            ),
            (BEHIND, self.behind.iter().any(|row| self.in_question(row))),
            (ROWS, searched > 0 && (device.carried > FIT || device.own > FIT)),
            (LISTED, searched > 0 && self.listed_count > MOST_LISTED),
            (MANY, searched > ONE_BYTE),
        ]
    }

    pub fn met(&self, outcome: &Outcome) -> Met {
        let rows = self.counts(|_| true);
        match outcome.said {
            Said::Ended { .. } => self.ended(outcome),
            Said::Done => vec![(GATHERED, rows)],
            Said::Malformed => vec![(MALFORMED, rows)],
            _ => Vec::new(),
        }
    }
}

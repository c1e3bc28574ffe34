//! Rows that turn, on areas that no call left: tombs that go after them, and what one met.

use super::reach::Met;
use crate::TOMBSTONE_LIMIT;
use crate::generate::{Rng, secret_of};
use lent::{Areas, Carried, ContactRow, Device, Outcome, Said, Tombstone, put_number, table};
use post::{Call, Sizes, Tag};

const COUNTS: [u64; 8] = [1_023, 1_024, 1_025, 1_030, 1 << 32, u64::MAX, u64::MAX, 1_024];
const LAST_SLOT: u64 = u64::MAX;

/// The tombstone rows of an area changed one by one: the change has the place.
fn alter_all(area: &mut [u8], change: impl Fn(usize, &mut Tombstone)) {
    use lent::Row;
    for (place, bytes) in area.chunks_exact_mut(Tombstone::WIDTH).enumerate() {
        let mut row = Tombstone::read(bytes);
        change(place, &mut row);
        bytes.copy_from_slice(&row.write());
    }
}

/// Counts around the limit and above the rows; expiries that are all the last, or least in two places, there with the tag of a row that can
/// turn; slots that fall.
pub fn spoil(areas: &mut Areas, rng: &mut Rng) {
    if rng.percent(70) {
        put_number(&mut areas.device, Device::TOMBSTONES, Some(rng.pick(&COUNTS)));
    }
    let (one, two) = (rng.below(TOMBSTONE_LIMIT), rng.below(TOMBSTONE_LIMIT));
    let least = rng.pick(&[0, 1, 9]);
    let turning = ready(areas).first().map(|row| row.tag);
    let area = &mut areas.tombstones;
    match rng.below(4) {
        0 => alter_all(area, |_, row| row.expiry = u32::MAX),
        1 => alter_all(area, |place, row| {
            let is_least = place == one || place == two;
            row.expiry = if is_least { least } else { row.expiry.max(least + 1) };
            row.tag = turning.filter(|_| is_least).unwrap_or(row.tag);
        }),
        2 => alter_all(area, |place, row| {
            row.slot = (place as u64).wrapping_mul(0x9e37) % 5_000
        }),
        _ => {}
    }
}

/// The carried rows that a right tomb turns: the first of their tag, with the commitment of the secret that is known.
fn ready(areas: &Areas) -> Vec<Carried> {
    let rows: Vec<Carried> = table(&areas.carried, Device::read(&areas.device).carried);
    let is_first = |place: usize| rows[..place].iter().all(|row| row.tag != rows[place].tag);
    let opens = |row: &Carried| row.commitment == rules::commitment(&secret_of(&row.tag));
    (0..rows.len())
        .filter(|place| is_first(*place) && opens(&rows[*place]))
        .map(|place| rows[place])
        .collect()
}

/// A tomb for such a row; now and then with a wrong secret.
pub fn call_after_one(areas: &Areas, sizes: &Sizes, rng: &mut Rng) -> Option<Call> {
    let rows = ready(areas);
    let contacts: Vec<ContactRow> = table(&areas.contacts, Device::read(&areas.device).contacts);
    if rows.is_empty() || contacts.is_empty() {
        return None;
    }
    let any = rng.pick(&rows);
    let tag = if rng.percent(40) { rows[0].tag } else { any.tag };
    Some(Call::Tomb {
        areas: post::Areas::enough(sizes),
        peer: rng.pick(&contacts).id,
        tag,
        secret: if rng.percent(15) { [0; 16] } else { secret_of(&tag) },
    })
}

/// What a tomb for a carried row meets; the areas are those before it.
pub struct Before {
    said: u64,
    rows: usize,
    next_slot: u64,
    turning: Carried,
    tombstones: Vec<Tombstone>,
}

impl Before {
    /// If the call is one.
    pub fn of(areas: &Areas, call: &Call) -> Option<Self> {
        let Call::Tomb { tag, .. } = call else {
            return None;
        };
        let device = Device::read(&areas.device);
        let carried: Vec<Carried> = table(&areas.carried, device.carried);
        Some(Self {
            said: device.tombstones as u64,
            rows: table::<Tombstone>(&areas.tombstones, usize::MAX).len(),
            next_slot: device.next_slot,
            turning: carried.into_iter().find(|row| row.tag == *tag)?,
            tombstones: table(&areas.tombstones, device.tombstones),
        })
    }

    /// The places of the tombstones of least expiry.
    fn least(&self) -> Vec<usize> {
        let least = self.tombstones.iter().map(|row| row.expiry).min();
        (0..self.tombstones.len())
            .filter(|place| Some(self.tombstones[*place].expiry) == least)
            .collect()
    }
}

const AT: &str = "at 1,024";
const ABOVE: &str = "above 1,024";
const BELOW: &str = "below 1,024, and none goes";
const COUNT: &str = "where the count is above the rows";
const FALLING: &str = "where slots fall";
const NOT_LOWEST: &str = "of equals the first goes, though another has a lower slot";
const EQUALS: &str = "one of two or more of least expiry goes";
const LAST: &str = "where all expiries are 2^32 - 1";
const OWN_LEAST: &str = "its own expiry is the least";
const ITS_TAG: &str = "the tombstone of its own tag goes";
const ITS_SLOT: &str = "a tombstone has its slot";
const NO_SLOT: &str = "with the last slot used";
const FIVE: &str = "refused by 5 below 1,024, though the count says more";
const MALFORMED: &str = "a wrong secret, and none goes";

#[cfg(feature = "library")]
pub const ALL: [&str; 14] = [
    AT, ABOVE, BELOW, COUNT, FALLING, NOT_LOWEST, EQUALS, LAST, OWN_LEAST, ITS_TAG, ITS_SLOT, NO_SLOT, FIVE, MALFORMED,
];

impl Before {
    /// One went, and the row turned.
    fn displaced(&self) -> Met {
        let (least, rows, turning) = (self.least(), &self.tombstones, &self.turning);
        let first = rows[least[0]];
        let rising = rows.is_sorted_by_key(|row| row.slot);
        let tag: &Tag = &turning.tag;
        vec![
            (AT, rows.len() == TOMBSTONE_LIMIT),
            (ABOVE, rows.len() > TOMBSTONE_LIMIT),
            (COUNT, self.said > self.rows as u64),
            (FALLING, !rising),
            (NOT_LOWEST, least.iter().any(|place| rows[*place].slot < first.slot)),
            (EQUALS, least.len() > 1),
            (LAST, first.expiry == u32::MAX),
            (OWN_LEAST, turning.expiry < first.expiry),
            (ITS_TAG, first.tag == *tag),
            (ITS_SLOT, rows.iter().any(|row| row.slot == turning.slot)),
            (NO_SLOT, self.next_slot == LAST_SLOT),
        ]
    }

    pub fn met(&self, outcome: &Outcome) -> Met {
        let there = self.tombstones.len();
        match (&outcome.said, outcome.actions.len()) {
            (Said::Done, 2) => self.displaced(),
            (Said::Done, 1) => vec![(BELOW, there < TOMBSTONE_LIMIT)],
            (Said::Refused(5), _) => vec![(FIVE, there < TOMBSTONE_LIMIT && self.said >= TOMBSTONE_LIMIT as u64)],
            (Said::Malformed, 0) => vec![(MALFORMED, there >= TOMBSTONE_LIMIT)],
            _ => Vec::new(),
        }
    }
}

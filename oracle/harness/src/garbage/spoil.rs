//! Areas that no call left: garbage in every field.

use crate::generate::{Generator, Rng};
use lent::{
    Areas, BadTag, CELL, COUNTED, Carried, ContactRow, Device, Exchange, Offer, Own, Row, Tombstone, decoded,
    performed, put_number,
};

const COUNTS: [u64; 14] = [
    0,
    1,
    2,
    255,
    256,
    257,
    511,
    512,
    513,
    1_024,
    1 << 32,
    u64::MAX / 57 + 1,
    u64::MAX - 1,
    u64::MAX,
];
const CELLS: [u16; 10] = [0, 1, 2, 255, 256, 257, 299, 65_279, 65_280, 65_535];
const LENGTHS: [u16; 9] = [0, 1, 47, 48, 2_063, 2_064, 2_065, 4_128, 65_535];
const EXPIRIES: [u32; 5] = [0, 1, 10, u32::MAX - 1, u32::MAX];
const SLOTS: [u64; 6] = [0, 1, 2, 5_000, u64::MAX - 1, u64::MAX];

/// A row of an area changed, where it has a row.
fn alter<R: Row>(area: &mut [u8], rng: &mut Rng, change: impl FnOnce(&mut R, &mut Rng)) {
    let places = area.len() / R::WIDTH;
    if places == 0 {
        return;
    }
    // Mostly one of the first rows, which the counts reach.
    let most = if rng.percent(80) { places.min(6) } else { places };
    let at = rng.below(most) * R::WIDTH;
    let mut row = R::read(&area[at..at + R::WIDTH]);
    change(&mut row, rng);
    area[at..at + R::WIDTH].copy_from_slice(&row.write());
}

/// A tag of some row, so that tags meet.
fn tag(areas: &Areas, rng: &mut Rng) -> [u8; 16] {
    let state = decoded(areas);
    let mut tags: Vec<[u8; 16]> = state.held.iter().map(|row| *row.held.tag()).collect();
    tags.extend(state.own.iter().map(|row| row.tag));
    rng.pick_or(&tags, [0x11; 16])
}

fn contact(areas: &Areas, rng: &mut Rng) -> u64 {
    let ids: Vec<u64> = lent::table(&areas.contacts, Device::read(&areas.device).contacts)
        .iter()
        .map(|row: &ContactRow| row.id)
        .collect();
    if rng.percent(70) {
        rng.pick_or(&ids, 5)
    } else {
        rng.next()
    }
}

/// Off by a third; else any byte.
fn flag(rng: &mut Rng) -> u8 {
    if rng.percent(33) { 0 } else { rng.next() as u8 }
}

fn spoil_byte(area: &mut [u8], rng: &mut Rng) {
    area[rng.below(area.len())] = rng.next() as u8;
}

fn spoil_counts(areas: &mut Areas, rng: &mut Rng) {
    let at = rng.pick(&[
        Device::CONTACTS,
        Device::OWN,
        Device::CARRIED,
        Device::TOMBSTONES,
        Device::BAD_TAGS,
    ]);
    put_number(&mut areas.device, at, Some(rng.pick(&COUNTS)));
}

fn spoil_device(areas: &mut Areas, rng: &mut Rng) {
    let device = &mut areas.device;
    let clock = rng.pick(&[0, 599, 600, 60 * u64::from(u32::MAX), u64::MAX]);
    match rng.below(6) {
        0 => device[Device::ENABLED] = flag(rng),
        1 => device[Device::COPIES] = rng.next() as u8,
        2 => spoil_byte(&mut device[Device::LIFETIME..Device::CLOCK], rng),
        3 => put_number(device, Device::CLOCK, Some(clock)),
        4 => put_number(device, Device::NEXT_SLOT, Some(rng.pick(&SLOTS))),
        _ => spoil_byte(device, rng),
    }
}

fn spoil_exchange(areas: &mut Areas, rng: &mut Rng) {
    let peer = contact(areas, rng);
    let tag = tag(areas, rng);
    let place = rng.below(areas.sessions.len());
    let session = &mut areas.sessions[place];
    let exchange = &mut session.exchange;
    match rng.below(8) {
        0 => put_number(exchange, Exchange::LISTED, Some(rng.pick(&COUNTS))),
        1 => put_number(exchange, Exchange::OFFERED, Some(rng.pick(&COUNTS))),
        2 => exchange[Exchange::COMPLETE] = flag(rng),
        3 => exchange[Exchange::OPEN] = flag(rng),
        4 => put_number(exchange, Exchange::PEER, Some(peer)),
        5 => spoil_byte(exchange, rng),
        6 => alter::<[u8; 8]>(&mut session.prefixes, rng, |row, _| *row = post::array(&tag, 0)),
        _ => alter::<Offer>(&mut session.offers, rng, |row, rng| {
            *row = Offer {
                tag,
                copies: rng.next() as u8,
            }
        }),
    }
}

fn spoil_carried(areas: &mut Areas, rng: &mut Rng) {
    let (tag, peer) = (tag(areas, rng), contact(areas, rng));
    alter::<Carried>(&mut areas.carried, rng, |row, rng| match rng.below(7) {
        0 => row.cell = rng.pick(&CELLS),
        1 => row.len = rng.pick(&LENGTHS),
        2 => row.slot = rng.pick(&SLOTS),
        3 => row.tag = tag,
        4 => row.depositor = peer,
        5 => row.expiry = rng.pick(&EXPIRIES),
        _ => row.copies = rng.next() as u8,
    });
}

fn spoil_own(areas: &mut Areas, rng: &mut Rng) {
    let (tag, peer) = (tag(areas, rng), contact(areas, rng));
    alter::<Own>(&mut areas.own, rng, |row, rng| match rng.below(8) {
        0 => row.cell = rng.pick(&CELLS),
        1 => row.len = rng.pick(&LENGTHS),
        2 => row.message = rng.pick(&[0, 1, u32::MAX]),
        3 => row.tag = tag,
        4 => row.contact = peer,
        5 => row.expiry = rng.pick(&EXPIRIES),
        6 => row.renewed = rng.next() as u8,
        _ => row.copies = rng.next() as u8,
    });
}

/// Mostly that of a carried row, so that slots meet.
fn slot(areas: &Areas, rng: &mut Rng) -> u64 {
    let rows: Vec<Carried> = lent::table(&areas.carried, Device::read(&areas.device).carried);
    let slots: Vec<u64> = rows.iter().take(6).map(|row| row.slot).collect();
    if rng.percent(70) {
        rng.pick_or(&slots, 0)
    } else {
        rng.pick(&SLOTS)
    }
}

fn spoil_rest(areas: &mut Areas, rng: &mut Rng) {
    let (tag, peer, slot) = (tag(areas, rng), contact(areas, rng), slot(areas, rng));
    match rng.below(5) {
        0 => alter::<Tombstone>(&mut areas.tombstones, rng, |row, _| row.slot = slot),
        1 => alter::<Tombstone>(&mut areas.tombstones, rng, |row, _| row.tag = tag),
        2 => alter::<Tombstone>(&mut areas.tombstones, rng, |row, rng| row.expiry = rng.pick(&EXPIRIES)),
        3 => alter::<BadTag>(&mut areas.bad_tags, rng, |row, _| *row = BadTag { peer, tag }),
        _ => alter::<ContactRow>(&mut areas.contacts, rng, |row, rng| {
            *row = ContactRow {
                id: if rng.percent(50) { row.id } else { peer },
                verification: rng.next() as u8,
            }
        }),
    }
}

/// An area of bytes that mean nothing.
fn spoil_area(areas: &mut Areas, rng: &mut Rng) {
    let session = rng.below(areas.sessions.len());
    let area: &mut [u8] = match rng.below(7) {
        0 => &mut areas.contacts,
        1 => &mut areas.own,
        2 => &mut areas.carried,
        3 => &mut areas.tombstones,
        4 => &mut areas.bad_tags,
        5 => &mut areas.device,
        _ => &mut areas.sessions[session].exchange,
    };
    area.iter_mut().for_each(|byte| *byte = rng.next() as u8);
}

/// A row of a cell that does not count, or of the last that does; its length is mostly that of a ciphertext.
fn spoil_cell(areas: &mut Areas, rng: &mut Rng) {
    let cell = rng.pick(&CELLS);
    let len = rng.pick(&LENGTHS);
    if rng.percent(50) {
        alter::<Carried>(&mut areas.carried, rng, |row, _| (row.cell, row.len) = (cell, len));
    } else {
        alter::<Own>(&mut areas.own, rng, |row, _| (row.cell, row.len) = (cell, len));
    }
}

pub fn spoil(areas: &mut Areas, rng: &mut Rng) {
    if areas.carried_cells.len() > usize::from(COUNTED) * CELL {
        spoil_cell(areas, rng);
    }
    for _ in 0..rng.between(1, 8) {
        match rng.below(22) {
            0..4 => spoil_counts(areas, rng),
            4..6 => spoil_device(areas, rng),
            6..9 => spoil_exchange(areas, rng),
            9..13 => spoil_carried(areas, rng),
            13..16 => spoil_own(areas, rng),
            16..19 => spoil_rest(areas, rng),
            19..21 => spoil_cell(areas, rng),
            _ => spoil_area(areas, rng),
        }
    }
}

/// Areas that hold something, of lengths that need not be whole rows or cells; some have more cells than count.
pub fn warm(generator: &mut Generator, rng: &mut Rng) -> Areas {
    let many = rng.percent(30);
    if many {
        generator.sizes.own_cells = COUNTED.into();
        generator.sizes.carried_cells = COUNTED.into();
    }
    let mut areas = Areas::fresh(&generator.sizes);
    if many {
        areas.own_cells.resize(rng.between(257, 300) * CELL, 0x5b);
        areas.carried_cells.resize(rng.between(257, 300) * CELL, 0x5b);
    }
    if rng.percent(60) {
        areas.tombstones.resize(areas.tombstones.len() + rng.below(44), 0x5a);
        areas.bad_tags.resize(areas.bad_tags.len() + rng.below(24), 0x5a);
        areas.own_cells.resize(areas.own_cells.len() + rng.below(CELL), 0x5a);
        areas
            .carried_cells
            .resize(areas.carried_cells.len() + rng.below(CELL), 0x5a);
    }
    for _ in 0..rng.between(10, 200) {
        let call = generator.next(&decoded(&areas));
        performed(&mut areas, &call);
    }
    areas
}

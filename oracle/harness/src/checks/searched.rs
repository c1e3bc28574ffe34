//! Request Three: the count at the end of an inventory. Each check puts its calls to the source, to the second statement, and to the library
//! where it is linked.

use super::bench::*;
use super::{Check, Outcome, same};
use post::{Answer, Call, Custody, FileRecord, Prefix, Reply, Sizes, Tag, Verification, array, encode_file};
use reference::raw;

/// As `SIZES`, with cells and rows for what the checks hold.
const ROOM: Sizes = Sizes {
    carried_cells: 4,
    own_cells: 4,
    tombstone_rows: 4,
    ..SIZES
};

/// Rows that the load of a whole post has of each of its depositors, and the first of these.
const EACH: usize = 32;
const FIRST_DEPOSITOR: u64 = 100;
/// As many carried rows, and as many own rows, as a post can hold.
const MOST: usize = 256;

/// In a fresh exchange the prefixes listed, if there are any, then the empty list: how many offers, and the count. The list that is gathered
/// counts 0.
fn ended(bench: &mut Bench, prefixes: &[Prefix]) -> (usize, usize) {
    bench.open();
    if !prefixes.is_empty() {
        assert_eq!(bench.inventory(prefixes, &[]), Answer::nothing(), "a list is gathered");
    }
    match bench.inventory(&[], &[]) {
        Answer::Done {
            malformed: false,
            replies,
            searched,
            ..
        } => (
            replies
                .iter()
                .filter(|reply| matches!(reply, Reply::Envelope(_)))
                .count(),
            searched,
        ),
        other => panic!("{other:?}"),
    }
}

fn carry(bench: &mut Bench, tag: Tag, copies: u8) {
    let call = bench.envelope_call(VERIFIED, envelope(tag, 100, copies));
    bench.call(call);
}

/// An own row for a contact: its tag.
fn own(bench: &mut Bench, contact: u64, message: u32) -> Tag {
    match bench.call(bench.own_call(contact, message, 48)) {
        Answer::Own(row) => row.tag,
        other => panic!("{other:?}"),
    }
}

fn accept(bench: &mut Bench, tag: Tag) {
    bench.call(Call::CustodyCode {
        areas: bench.areas,
        exchange: 0,
        peer: VERIFIED,
        tag,
        code: Custody::Accepted,
    });
}

/// A row that is offered and one that is tombstoned both count; one that is listed does not, tombstoned or not.
fn offered_tombstoned_listed() -> Outcome {
    let mut bench = opened(ROOM);
    carry(&mut bench, tag(1), 4);
    carry(&mut bench, tag(2), 4);
    carry(&mut bench, tag(3), 4);
    same(ended(&mut bench, &[]), (3, 3))?;
    bench.store(tag(2), 100);
    same(ended(&mut bench, &[]), (2, 3))?;
    same(ended(&mut bench, &[prefix(1)]), (1, 2))?;
    same(ended(&mut bench, &[prefix(2)]), (2, 2))?;
    same(ended(&mut bench, &[prefix(1), prefix(3)]), (0, 1))?;
    same(ended(&mut bench, &[prefix(3), prefix(1), prefix(2), prefix(1)]), (0, 0))
}

/// All rows tombstoned: no offer, and every row counts.
fn all_tombstoned() -> Outcome {
    let mut bench = opened(ROOM);
    for byte in 1..4 {
        carry(&mut bench, tag(byte), 2);
        bench.store(tag(byte), 100);
    }
    same(ended(&mut bench, &[]), (0, 3))?;
    same(ended(&mut bench, &[prefix(2)]), (0, 2))
}

/// A tombstone alone is no row to offer.
fn no_row() -> Outcome {
    let mut bench = opened(ROOM);
    same(ended(&mut bench, &[]), (0, 0))?;
    bench.store(tag(1), 100);
    same(ended(&mut bench, &[prefix(1)]), (0, 0))
}

/// 1 copy is not counted and 2 are; copies that fall to 1 and to 0 end the count, tombstoned or not.
fn copies_count() -> Outcome {
    let mut bench = opened(ROOM);
    carry(&mut bench, tag(1), 1);
    same(ended(&mut bench, &[]), (0, 0))?;
    bench.store(tag(1), 100);
    same(ended(&mut bench, &[]), (0, 0))?;
    carry(&mut bench, tag(2), 2);
    same(ended(&mut bench, &[]), (1, 1))?;
    accept(&mut bench, tag(2));
    same(ended(&mut bench, &[]), (0, 0))
}

/// The listing is by prefix, the tombstones are by tag.
fn prefix_and_tag() -> Outcome {
    let mut bench = opened(ROOM);
    carry(&mut bench, tag_in(1, 7), 4);
    carry(&mut bench, tag_in(1, 8), 4);
    bench.store(tag_in(1, 8), 100);
    same(ended(&mut bench, &[]), (1, 2))?;
    same(ended(&mut bench, &[prefix(2)]), (1, 2))?;
    same(ended(&mut bench, &[prefix(1)]), (0, 0))
}

/// An own row counts, but not for its contact, tombstoned or not.
fn own_rows() -> Outcome {
    let mut bench = opened(ROOM);
    own(&mut bench, VERIFIED, 1);
    same(ended(&mut bench, &[]), (0, 0))?;
    let mine = own(&mut bench, UNVERIFIED, 2);
    same(ended(&mut bench, &[]), (1, 1))?;
    same(ended(&mut bench, &[array(&mine, 0)]), (0, 0))?;
    bench.store(mine, 100);
    same(ended(&mut bench, &[]), (0, 1))
}

/// Own rows of two contacts and a carried row, all of one tag: each row counts, tombstoned or not.
fn rows_of_one_tag() -> Outcome {
    let mut bench = opened(ROOM);
    let Answer::Own(row) = bench.call(bench.own_call(UNVERIFIED, 1, 48)) else {
        return Err("no own row".into());
    };
    own(&mut bench, COMPROMISED, 1);
    same(ended(&mut bench, &[]), (2, 2))?;
    let blob = raw::blob(&carried(VERIFIED, row.tag, 100, 4));
    let file = encode_file(&[FileRecord::NextSlot(9), FileRecord::Row(b'C', 4, blob)]);
    same(bench.call(Call::Load { file }), Answer::nothing())?;
    same(ended(&mut bench, &[]), (3, 3))?;
    bench.store(row.tag, 100);
    same(ended(&mut bench, &[]), (0, 3))?;
    same(ended(&mut bench, &[array(&row.tag, 0)]), (0, 0))
}

/// An expired row counts until maintenance takes it, and so does a row of an expired tombstone.
fn expired() -> Outcome {
    let mut bench = opened(ROOM);
    carry(&mut bench, tag(1), 4);
    carry(&mut bench, tag(2), 4);
    bench.store(tag(2), 5);
    same(ended(&mut bench, &[]), (1, 2))?;
    bench.call(Call::Clock { seconds: 100 * 60 });
    same(ended(&mut bench, &[]), (1, 2))?;
    let areas = bench.areas;
    bench.call(Call::Maintenance { areas });
    same(ended(&mut bench, &[]), (0, 0))
}

/// A carried row that turned is no row to offer.
fn turned() -> Outcome {
    let mut bench = opened(ROOM);
    bench.deposit(1);
    same(ended(&mut bench, &[]), (1, 1))?;
    let turning = bench.tomb_call(tag(1), SECRET);
    bench.call(turning);
    same(ended(&mut bench, &[]), (0, 0))
}

/// A list that is gathered, an inventory that is malformed and one that is refused count nothing, though a row is held.
fn no_end_no_count() -> Outcome {
    let mut bench = opened(ROOM);
    bench.deposit(1);
    let malformed = Answer::Done {
        malformed: true,
        replies: Vec::new(),
        actions: Vec::new(),
        searched: 0,
    };
    same(bench.inventory(&[prefix(9)], &[]), Answer::nothing())?;
    same(bench.inventory(&vec![prefix(9); 512], &[]), malformed.clone())?;
    same(ended(&mut bench, &[]), (1, 1))?;
    same(bench.inventory(&[], &[]), malformed.clone())?;
    same(bench.inventory(&[prefix(9)], &[]), malformed)?;
    let (areas, exchange) = (bench.areas, 1);
    let refused = bench.refusal(Call::Inventory {
        areas,
        window: Vec::new().into(),
        exchange,
        peer: VERIFIED,
        prefixes: Vec::new().into(),
    });
    same(refused, Some(3))
}

/// A prefix listed 512 times ends no more rows than once.
fn listed_512_times() -> Outcome {
    let mut bench = opened(ROOM);
    bench.deposit(1);
    bench.deposit(2);
    same(ended(&mut bench, &vec![prefix(1); 512]), (1, 1))
}

fn whole_tag(number: usize) -> Tag {
    let mut tag = [0xab; 16];
    tag[..8].copy_from_slice(&(number as u64).to_be_bytes());
    tag
}

/// A post of 256 carried rows, by a load, and of 256 own rows; every other carried row is tombstoned.
fn whole() -> Bench {
    let mut bench = Bench::new(Sizes {
        carried_cells: MOST,
        own_cells: MOST,
        tombstone_rows: MOST,
        ..SIZES
    });
    let depositor = |number: usize| FIRST_DEPOSITOR + (number / EACH) as u64;
    for id in FIRST_DEPOSITOR..=depositor(MOST - 1) {
        let verification = Verification::Verified;
        bench.call(Call::Contact { id, verification });
    }
    let row = |number: usize| {
        let held = carried(depositor(number), whole_tag(number), 100, 2);
        FileRecord::Row(b'C', number as u64, raw::blob(&held))
    };
    let dead = |number: usize| {
        let held = tombstone(whole_tag(number), 100);
        FileRecord::Row(b'T', (MOST + number) as u64, raw::blob(&held))
    };
    let mut records = vec![FileRecord::NextSlot(2 * MOST as u64)];
    records.extend((0..MOST).map(row));
    records.extend((0..MOST).step_by(2).map(dead));
    let loaded = bench.call(Call::Load {
        file: encode_file(&records),
    });
    assert_eq!(loaded, Answer::nothing(), "the load");
    for message in 0..MOST as u32 {
        own(&mut bench, UNVERIFIED, message);
    }
    bench
}

/// The most that a count can be: 256 own rows and 256 carried rows.
fn most() -> Outcome {
    let mut bench = whole();
    same(ended(&mut bench, &[]), (MOST + MOST / 2, 2 * MOST))?;
    let prefixes: Vec<Prefix> = (0..MOST).map(|number| array(&whole_tag(number), 0)).collect();
    same(ended(&mut bench, &prefixes), (MOST, MOST))?;
    same(ended(&mut bench, &prefixes[1..]), (MOST, MOST + 1))
}

pub const CHECKS: &[Check] = &[
    (
        "offered and tombstoned rows count, listed ones do not",
        offered_tombstoned_listed,
    ),
    ("all rows tombstoned: no offer, and all count", all_tombstoned),
    ("no row: 0, though there is a tombstone", no_row),
    ("1 copy and none do not count, 2 do", copies_count),
    ("the listing by prefix, the tombstones by tag", prefix_and_tag),
    ("own rows count, but not for their contact", own_rows),
    ("three rows of one tag count three times", rows_of_one_tag),
    ("expired rows and tombstones count until maintenance", expired),
    ("a carried row that turned does not count", turned),
    (
        "gathered, malformed and refused: 0 though a row is held",
        no_end_no_count,
    ),
    ("a prefix listed 512 times", listed_512_times),
    ("at most 512: 256 own rows and 256 carried rows", most),
];

//! Document 02's screen page: whole lines, letter by letter, and how many rows stand on each page.

use super::bench::*;
use super::{Check, Outcome, holds, same};
use post::{Answer, Call, FileRecord, Held, Screen, Sizes, Verification, encode_file};
use reference::raw;

const ROOMY: Sizes = Sizes {
    carried_cells: 64,
    own_cells: 1,
    tombstone_rows: 64,
    bad_rows: 1,
    exchanges: 1,
};

/// A line of these columns and so many blanks behind them.
fn line(columns: &str, blanks: usize) -> String {
    format!("{columns}{}\n", " ".repeat(blanks))
}

fn heading() -> String {
    line("HELD", 76)
}

/// A post that holds these rows at minute 10; their depositors are known.
fn holding(rows: &[(u64, Held)]) -> Bench {
    let mut bench = Bench::new(ROOMY);
    let mut records = vec![FileRecord::NextSlot(u64::MAX)];
    for (slot, held) in rows {
        if let Held::Carried { depositor, .. } = held {
            bench.call(Call::Contact {
                id: *depositor,
                verification: Verification::Verified,
            });
        }
        let mark = if held.is_carried() { b'C' } else { b'T' };
        records.push(FileRecord::Row(mark, *slot, raw::blob(held)));
    }
    let loaded = bench.call(Call::Load {
        file: encode_file(&records),
    });
    assert_eq!(loaded, Answer::nothing());
    bench
}

fn page(bench: &mut Bench, number: u64) -> Answer {
    let areas = bench.areas;
    bench.call(Call::Page { areas, number })
}

fn has(bench: &mut Bench, number: u64, lines: &[String]) -> Outcome {
    same(page(bench, number), Answer::Page(Screen(lines.concat().into_bytes())))
}

fn no_rows() -> Outcome {
    let mut bench = Bench::new(ROOMY);
    same(heading().len(), 81)?;
    for number in [0, 1, 1 << 32, u64::MAX] {
        has(&mut bench, number, &[heading()])?;
    }
    Ok(())
}

/// The least and the most of every column.
fn columns() -> Outcome {
    let mut bench = holding(&[
        (0, carried(0, tag(0x0f), 1, 1)),
        (7, tombstone(tag_in(0xa9, 0x11), 11)),
        (4_000_000_000, carried(u64::MAX, tag(0xff), u32::MAX, 255)),
        (u64::MAX - 1, tombstone(tag(0), 0)),
    ]);
    bench.call(Call::Clock { seconds: 659 });
    let lines = [
        heading(),
        line(
            "                   0 C 0f0f0f0f0f0f0f0f       past   1                    0",
            5,
        ),
        line("                   7 T a9a9a9a9a9a9a9a9          1", 30),
        line(
            "          4000000000 C ffffffffffffffff 4294967285 255 18446744073709551615",
            5,
        ),
        line("18446744073709551614 T 0000000000000000       past", 30),
    ];
    has(&mut bench, 0, &lines)
}

/// A row of this minute is past; of the next it has 1 left. The minute stops at 2^32 - 1.
fn at_expiry() -> Outcome {
    let mut bench = holding(&[(3, tombstone(tag(1), 20)), (4, tombstone(tag(2), u32::MAX))]);
    let last = u64::from(u32::MAX) * 60;
    for (seconds, first, second) in [
        (1_199, "         1", "4294967276"),
        (1_200, "      past", "4294967275"),
        (last - 1, "      past", "         1"),
        (last, "      past", "      past"),
        (u64::MAX, "      past", "      past"),
    ] {
        bench.call(Call::Clock { seconds });
        let row = |slot: u64, prefix: &str, left: &str| line(&format!("{slot:>20} T {prefix} {left}"), 30);
        let lines = [
            heading(),
            row(3, "0101010101010101", first),
            row(4, "0202020202020202", second),
        ];
        has(&mut bench, 0, &lines)?;
    }
    Ok(())
}

/// So many tombstones with carried rows between them.
fn many(count: u64) -> Vec<(u64, Held)> {
    let number = |number: u64| {
        let mut tag = tag(0xc0);
        tag[..8].copy_from_slice(&number.to_be_bytes());
        tag
    };
    let row = |slot: u64| match slot % 3 {
        0 => carried(1_000 + slot / 30, number(slot), 100, 4),
        _ => tombstone(number(slot), 100),
    };
    (0..count).map(|slot| (2 * slot, row(slot))).collect()
}

/// The slots of the rows of a page.
fn slots(answer: &Answer) -> Vec<u64> {
    let Answer::Page(Screen(page)) = answer else {
        return Vec::new();
    };
    let text = String::from_utf8_lossy(page);
    let rows = text.lines().skip(1);
    rows.map(|row| row[..20].trim().parse().expect("a slot")).collect()
}

/// Each row stands on one page, by rising slot, and 19 on every page but the last.
fn each_row_once() -> Outcome {
    for count in [0, 1, 18, 19, 20, 37, 38, 39, 90] {
        let mut bench = holding(&many(count));
        let pages: Vec<Vec<u64>> = (0..6).map(|number| slots(&page(&mut bench, number))).collect();
        let wanted: Vec<u64> = (0..count).map(|slot| 2 * slot).collect();
        same(pages.concat(), wanted)?;
        let last = (count / 19) as usize;
        holds(
            pages[..last].iter().all(|page| page.len() == 19),
            "19 on every page but the last",
        )?;
        has(&mut bench, count.div_ceil(19), &[heading()])?;
    }
    Ok(())
}

/// Numbers that are page 0 or 1 if they are cut, and one of which 19 times is 2 in 64 bits.
fn high_numbers() -> Outcome {
    let mut bench = holding(&many(25));
    for number in [2, 1 << 32, (1 << 32) + 1, 1 << 63, u64::MAX / 19 + 1, u64::MAX] {
        has(&mut bench, number, &[heading()])?;
    }
    Ok(())
}

fn areas() -> Outcome {
    let mut bench = holding(&many(25));
    for number in [0, 1, 2, u64::MAX] {
        for (bytes, refused) in [(0, true), (81, true), (1_619, true), (1_620, false), (1_621, false)] {
            let mut areas = bench.areas;
            areas.answer = bytes;
            let want = refused.then_some(1);
            same((bytes, bench.refusal(Call::Page { areas, number })), (bytes, want))?;
        }
    }
    Ok(())
}

pub const CHECKS: &[Check] = &[
    ("no held row: the heading, whatever the page", no_rows),
    ("the least and the most of every column", columns),
    ("past from the minute of the expiry on", at_expiry),
    ("each row on one page, 19 on every page but the last", each_row_once),
    ("pages past the last, up to 2^64 - 1", high_numbers),
    ("1: an area of 1,620 bytes, whatever the page needs", areas),
];

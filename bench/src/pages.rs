//! Screen pages of full areas, beside plain Rust. The source has none.

use crate::pair::{EARLY, Pair, Shape};
use crate::screen::{LINE, Map, PAGE, ROWS, Tables};
use crate::timing::each;
use std::hint::black_box;

const HELD: usize = 256 + 1_024;
const PAGES: u64 = HELD.div_ceil(ROWS) as u64;
const CALLS: usize = 50;
const ROUNDS: usize = 2_000;

const CASES: [(&str, u64); 4] = [
    ("page: the first of full areas", 0),
    ("page: the last that is full", PAGES - 2),
    ("page: the last of full areas", PAGES - 1),
    ("page: past the last", u64::MAX),
];

struct Programs {
    pair: Pair,
    map: Map,
    tables: Tables,
}

/// All three with the same rows, half of which have expired.
fn full() -> Programs {
    let mut pair = Pair::new(Shape::of(256));
    pair.set_late();
    assert!(pair.held.len() == HELD, "not the rows of full areas");
    let map = Map { minute: EARLY, held: pair.held.iter().cloned().collect() };
    let tables = Tables::of(EARLY, &pair.held);
    Programs { pair, map, tables }
}

/// Every page has the same bytes by each.
fn compare(programs: &mut Programs) {
    let (mut rows, mut area, mut out) = (0, [0; PAGE], Vec::new());
    for page in (0..=PAGES).chain([u64::MAX]) {
        let shown = programs.pair.library.shown(page);
        programs.map.page(page, &mut out).expect("a `Vec` takes all bytes");
        assert!(shown == out, "page {page} differs from that with `write!`");
        let length = programs.tables.page(page, &mut area);
        assert!(shown == &area[..length], "page {page} differs from that by hand");
        rows += length / LINE - 1;
    }
    assert!(rows == HELD, "{rows} rows on all pages");
}

/// Nanoseconds of the library, with `write!` and by hand.
fn time(programs: &mut Programs, page: u64) -> [f64; 3] {
    let Programs { pair, map, tables } = programs;
    let (mut area, mut out) = ([0; PAGE], Vec::with_capacity(PAGE));
    let mut least = [f64::MAX; 3];
    for _ in 0..ROUNDS {
        let pages = || vec![page; CALLS];
        least[0] = least[0].min(each(pages(), |page| pair.library.page(page)));
        least[1] = least[1].min(each(pages(), |page| map.page(page, &mut out)));
        least[2] = least[2].min(each(pages(), |page| tables.page(page, &mut area)));
    }
    black_box((area, out));
    least.map(|time| time / CALLS as f64)
}

pub fn run() {
    let mut programs = full();
    compare(&mut programs);
    println!("\n| of 256 carried rows and 1,024 tombstones | library, ns | of Rust with `write!` | of Rust by hand |");
    println!("|---|---|---|---|");
    for (name, page) in CASES {
        let [library, written, by_hand] = time(&mut programs, page);
        println!("| {name} | {library:.0} | {:.2} | {:.2} |", library / written, library / by_hand);
    }
}

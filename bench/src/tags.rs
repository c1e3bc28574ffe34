//! A tag looked for in rows, beside Rust's `==`.

use crate::timing::best;
use std::hint::black_box;

const ROW: usize = 57;
const TAG_AT: usize = 16;
const ROWS: usize = 256;

type Rows = [[u8; ROW]; ROWS];

unsafe extern "C" {
    fn bench_tagged(rows: *const Rows, tag: *const [u8; 16]) -> usize;
}

fn proved(rows: &Rows, tag: &[u8; 16]) -> usize {
    // SAFETY: both have their fixed length.
    unsafe { bench_tagged(rows, tag) }
}

#[inline(never)]
fn rust(rows: &Rows, tag: &[u8; 16]) -> usize {
    rows.iter().filter(|row| row[TAG_AT..TAG_AT + 16] == *tag).count()
}

/// Rows whose tags share so many leading bytes with the tag, and not the next.
fn rows_sharing(shared: usize, tag: &[u8; 16]) -> Rows {
    let mut rows: Rows = std::array::from_fn(|i| std::array::from_fn(|j| (57 * i + j * 31) as u8));
    for row in &mut rows {
        row[TAG_AT..TAG_AT + shared].copy_from_slice(&tag[..shared]);
        row[TAG_AT + shared] = !tag[shared];
    }
    rows
}

fn compare(rows: &Rows, tag: &[u8; 16]) {
    for hits in [vec![], vec![0], vec![3, 100, ROWS - 1]] {
        let mut some = *rows;
        for &i in &hits {
            some[i][TAG_AT..TAG_AT + 16].copy_from_slice(tag);
        }
        assert!(proved(&some, tag) == hits.len() && rust(&some, tag) == hits.len(), "a wrong count of tags");
    }
}

pub fn run() {
    let tag: [u8; 16] = std::array::from_fn(|i| 0xa0 + i as u8);
    println!("\n| tag looked for in {ROWS} rows that share | proved, ns | of Rust's `==` |\n|---|---|---|");
    let (mut least, mut most) = (f64::MAX, 0f64);
    for shared in [0, 8, 15] {
        let rows = rows_sharing(shared, &tag);
        compare(&rows, &tag);
        let ours = || {
            black_box(proved(black_box(&rows), black_box(&tag)));
        };
        let theirs = || {
            black_box(rust(black_box(&rows), black_box(&tag)));
        };
        let times = best(4_000, 100, &[&ours, &theirs]);
        println!("| {shared} leading bytes | {:.0} | {:.2} |", times[0], times[0] / times[1]);
        (least, most) = (least.min(times[0]), most.max(times[0]));
    }
    println!("\nIts slowest over its fastest: {:.2}", most / least);
}

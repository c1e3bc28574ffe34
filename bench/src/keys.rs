//! Tags, secrets and commitments beside the source's.

use crate::timing::best;
use goosetable_sys as sys;
use source::raw;
use std::hint::black_box;

type Sixteen = [u8; 16];

const KEY: [u8; 32] = [0x5a; 32];
const SECRET: Sixteen = [0x33; 16];
/// An index whose `leb128` has all five bytes.
const INDEX: u32 = u32::MAX;

fn filled(call: impl FnOnce(&mut Sixteen)) -> Sixteen {
    let mut area = [0; 16];
    call(&mut area);
    area
}

fn route_tag() -> Sixteen {
    filled(|tag| {
        sys::route_tag(black_box(&KEY), b'R', 255, INDEX, tag);
    })
}

fn delivered() -> Sixteen {
    filled(|secret| sys::delivered(black_box(&KEY), secret))
}

fn commitment() -> Sixteen {
    filled(|commitment| sys::commitment(black_box(&SECRET), commitment))
}

type Pair = (&'static str, fn() -> Sixteen, fn() -> Sixteen);

const CASES: [Pair; 3] = [
    ("route tag", route_tag, || raw::route_tag(black_box(&KEY), b'R', 255, INDEX)),
    ("delivered", delivered, || raw::delivered(black_box(&KEY))),
    ("commitment", commitment, || raw::commitment(black_box(&SECRET))),
];

pub fn run() {
    println!("\n| of a key | library, ns | of the source |\n|---|---|---|");
    for (name, ours, source) in CASES {
        assert!(ours() == source(), "{name} differs from the source's");
        let times = best(
            500,
            200,
            &[
                &|| {
                    black_box(ours());
                },
                &|| {
                    black_box(source());
                },
            ],
        );
        println!("| {name} | {:.0} | {:.2} |", times[0], times[0] / times[1]);
    }
}

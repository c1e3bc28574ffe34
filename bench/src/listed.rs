//! The end of an inventory that lists every own and carried row of a full post. For a listed row no tombstone is searched, so that what the rows
//! take, which is the time with all of them held less that with none, is the same for few tombstones and for many. For a listed prefix the
//! tombstones are searched in any case, and the whole call takes longer the more there are.

use crate::calls;
use crate::cases::{Case, Expected, RECORD};
use crate::measured::{BUDGET, PASSES, Times, least, microseconds, ratio, time};
use crate::pair::Shape;

const ROWS: usize = 256;
const TOMBSTONES: [usize; 2] = [16, 1_024];

fn held(tombstones: usize) -> Shape {
    Shape { tombstones, ..Shape::of(ROWS) }
}

fn none_held(tombstones: usize) -> Shape {
    Shape { carried: 0, own: 0, ..held(tombstones) }
}

/// Nothing is replied, and the tombstones are searched for no row.
const HELD: Case = Case {
    name: "every row held and listed",
    beside: RECORD,
    call: calls::end_of_every_row,
    expected: Expected::Ended(|_| 0, |_| 0),
    shape: held,
    calls: 1,
    forgets: false,
};
const NONE_HELD: Case = Case { name: "the same list, no row held", shape: none_held, ..HELD };

/// For the few tombstones and for the many.
type Line = [Times; 2];

/// Longer than other calls are timed: the difference is a small part of the call.
fn measured(case: &Case) -> Line {
    TOMBSTONES.map(|tombstones| time(case, tombstones, 3 * BUDGET))
}

fn print(name: &str, [few, many]: Line) {
    let cells = [few, many].map(|[library, source]| format!("{} | {}", microseconds(library), ratio(library / source)));
    let [growth, source_growth] = [0, 1].map(|side| ratio(many[side] / few[side]));
    println!("| {name} | {} | {growth} | {source_growth} |", cells.join(" | "));
}

pub fn run() {
    let mut lines: [Line; 2] = [[[f64::MAX; 2]; 2]; 2];
    for _ in 0..PASSES {
        for (line, case) in lines.iter_mut().zip([HELD, NONE_HELD]) {
            let [few, many] = measured(&case);
            *line = [least(line[0], few), least(line[1], many)];
        }
    }
    let [with_rows, without] = lines;
    let less = |one: Times, two: Times| [one[0] - two[0], one[1] - two[1]];
    print!("\n| inventory received: its end, 512 prefixes listed | 16 tombstones, µs | of the source ");
    println!("| 1,024 tombstones, µs | of the source | growth | the source's |\n|---|---|---|---|---|---|---|");
    print(HELD.name, with_rows);
    print(NONE_HELD.name, without);
    print("the difference: what the rows take", [less(with_rows[0], without[0]), less(with_rows[1], without[1])]);
}

//! Each case compared, timed and printed.

use crate::cases::{self, Case};
use crate::pair::Pair;
use crate::timing::{each, in_turns};
use post::Call;
use std::hint::black_box;
use std::time::Duration;

const FEW: usize = 16;
const MANY: usize = 256;
pub const PASSES: usize = 5;
/// For the many rows, in one pass.
pub const BUDGET: Duration = Duration::from_millis(200);

/// Nanoseconds of the library and of the source, or of what stands for it.
pub type Times = [f64; 2];

/// Of the few and the many rows of one case.
#[derive(Clone, Copy)]
struct Measured {
    few: Times,
    many: Times,
}

/// Both make the call once: the answers are the same and the expected ones, and so are the rows after it.
fn compare(case: &Case, pair: &mut Pair, call: &Call, rows: usize) {
    let said = pair.library.run(call);
    let answer = pair.library.answer(call, &said);
    assert!(case.expected.is(&answer, rows), "{} at {rows}: the library answers {answer:?}", case.name);
    if let Some(ready) = pair.source.ready(call) {
        let gave = pair.source.run(ready);
        assert!(answer.agrees(&pair.source.answer(call, gave)), "{} at {rows}: the answers differ", case.name);
    }
    let held = pair.library.saved() == pair.source.saved();
    let own = pair.library.own_rows() == pair.source.own_rows();
    assert!(held && own, "{} at {rows}: the rows differ after it", case.name);
}

/// On a post of the shape that the case has for so many rows.
pub fn time(case: &Case, rows: usize, budget: Duration) -> Times {
    let mut pair = Pair::new((case.shape)(rows));
    let call = (case.call)(&mut pair);
    compare(case, &mut pair, &call, rows);
    let Pair { library, source, .. } = &mut pair;
    let times = in_turns(
        budget,
        &mut || {
            library.restore();
            each(vec![&call; case.calls], |call| {
                black_box(library.run(call));
            })
        },
        &mut || {
            source.restore();
            if case.forgets {
                source.forget_tags();
            }
            let ready: Vec<_> = (0..case.calls).filter_map(|_| source.ready(&call)).collect();
            each(ready, |ready| source.run(ready))
        },
    );
    times.map(|time| time / case.calls as f64)
}

/// The lesser of each.
pub fn least(one: Times, two: Times) -> Times {
    [one[0].min(two[0]), one[1].min(two[1])]
}

impl Measured {
    const NOTHING: Self = Self { few: [f64::MAX; 2], many: [f64::MAX; 2] };

    fn of(case: &Case) -> Self {
        Self { few: time(case, FEW, BUDGET / 4), many: time(case, MANY, BUDGET) }
    }

    fn least(self, other: Self) -> Self {
        Self { few: least(self.few, other.few), many: least(self.many, other.many) }
    }

    fn ratio(&self) -> f64 {
        self.many[0] / self.many[1]
    }

    fn growth(&self) -> Times {
        [self.many[0] / self.few[0], self.many[1] / self.few[1]]
    }
}

pub fn microseconds(nanoseconds: f64) -> String {
    let places = if nanoseconds < 10_000.0 { 2 } else { 0 };
    format!("{:.places$}", nanoseconds / 1_000.0)
}

/// With two digits that count.
pub fn ratio(ratio: f64) -> String {
    let places = if ratio < 0.095 { 3 } else { 2 };
    format!("{ratio:.places$}")
}

fn print(case: &Case, measured: &Measured) {
    let (name, beside, time) = (case.name, case.beside, microseconds(measured.many[0]));
    let (of_its_time, [growth, its_growth]) = (ratio(measured.ratio()), measured.growth());
    if beside.is_empty() {
        println!("| {name} | – | {time} | – | {growth:.1} | – |");
    } else {
        println!("| {name} | {beside} | {time} | {of_its_time} | {growth:.1} | {its_growth:.1} |");
    }
}

/// Every call at 256 rows, and how its time grows from 16. All of them several times, so that no busy moment decides.
pub fn run() {
    let cases = cases::all();
    let mut all = vec![Measured::NOTHING; cases.len()];
    for _ in 0..PASSES {
        for (case, measured) in cases.iter().zip(&mut all) {
            *measured = measured.least(Measured::of(case));
        }
    }
    println!("\n| call | beside | library, µs | of its time | growth | its growth |\n|---|---|---|---|---|---|");
    let all = || cases.iter().zip(&all);
    all().for_each(|(case, measured)| print(case, measured));
    let beside = || all().filter(|(case, _)| !case.beside.is_empty());
    let over = beside().filter(|(_, measured)| measured.ratio() > 1.0);
    println!("\n{} of {} over 1.0 of the time beside", over.clone().count(), beside().count());
    over.for_each(|(case, _)| println!("- {}", case.name));
}

//! The library, or a wrong statement, on areas that no call left. The third statement says what must come out.

mod cells;
mod copies;
mod counts;
mod fetches;
mod pages;
mod reach;
mod spoil;
mod turns;

use crate::generate::{Generator, Profile, Rng};
use lent::{Areas, Device, Outcome, Reading, Wrong, decoded, performed, performed_with};
use post::{Call, Kind};
use reach::{Before, Reach};

/// What makes the calls beside the third statement.
pub trait Party {
    /// The areas as the third statement has them.
    fn expected(&self) -> &Areas;
    fn into_expected(self: Box<Self>) -> Areas;
    /// A fresh device, whatever lay in its area.
    fn fresh(&mut self);
    /// What the third statement says, unless this says or leaves something else.
    fn call(&mut self, call: &Call) -> Result<Outcome, String>;
}

/// Makes a party on these areas; where it has a choice, they stand against the first or the last of their pages.
type Maker<'a> = dyn Fn(Areas, bool) -> Box<dyn Party> + 'a;

/// The third statement itself with areas that are read in some way.
struct Reader {
    reading: Reading,
    expected: Areas,
    areas: Areas,
}

impl Party for Reader {
    fn expected(&self) -> &Areas {
        &self.expected
    }

    fn into_expected(self: Box<Self>) -> Areas {
        self.expected
    }

    fn fresh(&mut self) {
        Device::put_fresh(&mut self.expected.device);
        Device::put_fresh(&mut self.areas.device);
    }

    fn call(&mut self, call: &Call) -> Result<Outcome, String> {
        let expected = performed(&mut self.expected, call);
        let outcome = performed_with(self.reading, &mut self.areas, call);
        if outcome == expected && self.areas == self.expected {
            Ok(expected)
        } else {
            Err(format!("{outcome:?}, expected {expected:?}"))
        }
    }
}

#[cfg(feature = "library")]
impl Party for library::Library {
    fn expected(&self) -> &Areas {
        self.areas()
    }

    fn into_expected(self: Box<Self>) -> Areas {
        self.into_areas()
    }

    fn fresh(&mut self) {
        self.fresh();
    }

    fn call(&mut self, call: &Call) -> Result<Outcome, String> {
        let outcome = self.outcome(call);
        self.differences().into_iter().next().map_or(Ok(outcome), Err)
    }
}

/// A difference: the number of the call in its list, and what it is.
type Found = (usize, String);

/// Of any kind; some go after a row whose cell does not count, some after a tombstoned window tag, some after a row that turns, and some after
/// one with 0 copies.
fn next_call(generator: &mut Generator, areas: &Areas, rng: &mut Rng) -> Call {
    let wanted = match rng.below(10) {
        0 => cells::call_after_one(areas, &generator.sizes, rng),
        1..3 => fetches::call_after_one(areas, &generator.sizes, rng),
        3..5 if generator.profile.fills_tombstones() => turns::call_after_one(areas, &generator.sizes, rng),
        5 => copies::call_after_one(areas, &generator.sizes, rng),
        _ => None,
    };
    if let Some(call) = wanted {
        return call;
    }
    generator.of_kind(rng.pick(&Kind::ALL), &decoded(areas))
}

/// A list of one seed: areas, then garbage and a few calls in turn.
fn run_list(seed: u64, count: usize, make: &Maker, reach: &mut Reach) -> Result<(), Found> {
    let mut rng = Rng::new(seed ^ 0x6172_6561);
    let mut made = 0;
    while made < count {
        let mut generator = Generator::new(rng.next(), Profile::of_seed(seed));
        let mut areas = spoil::warm(&mut generator, &mut rng);
        for _ in 0..40 {
            spoil::spoil(&mut areas, &mut rng);
            if generator.profile.fills_tombstones() && rng.percent(40) {
                turns::spoil(&mut areas, &mut rng);
            }
            if rng.percent(20) {
                copies::spoil(&mut areas, &mut rng);
            }
            let mut party = make(areas, rng.percent(50));
            if rng.percent(2) {
                party.fresh();
            }
            for _ in 0..rng.between(1, 6) {
                let call = next_call(&mut generator, party.expected(), &mut rng);
                made += 1;
                let met = Before::of(party.expected(), &call);
                let outcome = party.call(&call).map_err(|what| (made, format!("{call:?}: {what}")))?;
                reach.count(met, party.expected(), &call, &outcome);
            }
            areas = party.into_expected();
        }
    }
    Ok(())
}

/// The seed and the call at which a wrong reading is told apart.
pub fn told(wrong: Wrong, lists: u64) -> Option<(u64, usize)> {
    let make = |areas: Areas, _| -> Box<dyn Party> {
        Box::new(Reader {
            reading: wrong.reading(),
            expected: areas.clone(),
            areas,
        })
    };
    (1..=lists).find_map(|seed| {
        let found = run_list(seed, 1, &make, &mut Reach::default());
        found.err().map(|(call, _)| (seed, call))
    })
}

/// `garbage FROM..TO CALLS [--reach]`: so many calls at least, shared out among the seeds.
#[cfg(feature = "library")]
pub fn main(arguments: &[String]) -> Option<std::process::ExitCode> {
    let (seeds, calls, must_reach) = match arguments {
        [seeds, calls] => (seeds, calls, false),
        [seeds, calls, option] if option == "--reach" => (seeds, calls, true),
        _ => return None,
    };
    let (from, to) = seeds.split_once("..")?;
    let (from, to): (u64, u64) = (from.parse().ok()?, to.parse().ok()?);
    let calls: usize = calls.parse().ok()?;
    let lists = to.checked_sub(from)? + 1;
    let make = |areas: Areas, first| -> Box<dyn Party> { Box::new(library::Library::of(areas, first)) };
    let mut reach = Reach::default();
    for seed in from..=to {
        library::watch(seed);
        if let Err((call, what)) = run_list(seed, calls.div_ceil(lists as usize), &make, &mut reach) {
            println!("first difference: seed {seed}, call {call}, {what}");
            return Some(crate::status(false));
        }
    }
    for line in reach.lines() {
        println!("{line}");
    }
    let missed = if must_reach { reach.missed() } else { Vec::new() };
    for what in &missed {
        println!("never reached, {what}");
    }
    println!("{calls} calls on garbage areas, 0 differences");
    Some(crate::status(missed.is_empty()))
}

//! The deliberately wrong variants of the second and the third statement, and the list of calls or the named check that tells each apart.

use crate::checks;
use crate::compare::judge::Judge;
use crate::compare::pair::difference;
use crate::garbage;
use crate::generate::{Generator, Profile};
use rules::{Rules, Wrong};
use std::fmt;

/// What saw it: the comparison with a seed, at a call; or a named check.
#[derive(Clone, Copy)]
enum Place {
    List(u64, usize),
    Check(&'static str),
}

impl fmt::Display for Place {
    fn fmt(&self, out: &mut fmt::Formatter<'_>) -> fmt::Result {
        match self {
            Self::List(seed, call) => write!(out, "seed {seed}, call {call}"),
            Self::Check(name) => write!(out, "the named check \"{name}\""),
        }
    }
}

/// Random lists meet these too seldom; the named checks, which the library is put to as well, must tell them apart.
const BY_CHECKS: [Wrong; 2] = [
    Wrong::LoadsUnknownDepositorsWithoutCopies,
    Wrong::RefusesTombstonedWithoutCopies,
];

/// A variant, and where it was told apart.
pub struct Told {
    name: String,
    says: &'static str,
    at: Option<Place>,
}

const CALLS: usize = 400;

/// One list, for all variants of the second statement that are not yet told apart.
fn run_list(seed: u64, all: &mut [(Wrong, Option<Place>)]) -> Result<(), String> {
    let mut generator = Generator::new(seed, Profile::of_seed(seed));
    let mut judge = Judge::new(generator.sizes);
    let mut left: Vec<(&mut Option<Place>, Rules)> = all
        .iter_mut()
        .filter(|(_, at)| at.is_none())
        .map(|(wrong, at)| (at, Rules::wrong_in(generator.sizes, *wrong)))
        .collect();
    for number in 1..=CALLS {
        if left.is_empty() {
            break;
        }
        let call = generator.next(judge.held());
        judge.take(&call, |seen| {
            left.retain_mut(|(at, rules)| {
                let same = difference(rules, seen).is_ok();
                **at = (!same).then_some(Place::List(seed, number));
                same
            });
        })?;
    }
    Ok(())
}

/// Every variant, on at most so many lists.
pub fn all(lists: u64) -> Result<Vec<Told>, String> {
    let is_random = |wrong: &&Wrong| !BY_CHECKS.contains(wrong);
    let mut second: Vec<(Wrong, Option<Place>)> = Wrong::ALL
        .iter()
        .filter(is_random)
        .map(|wrong| (*wrong, None))
        .collect();
    for seed in 1..=lists {
        run_list(seed, &mut second)?;
    }
    let checked = BY_CHECKS.map(|wrong| (wrong, checks::told(wrong).map(Place::Check)));
    let second = second.into_iter().chain(checked).map(|(wrong, at)| Told {
        name: format!("{wrong:?}"),
        says: wrong.says(),
        at,
    });
    let third = lent::Wrong::ALL.into_iter().map(|wrong| Told {
        name: format!("{wrong:?}"),
        says: wrong.says(),
        at: garbage::told(wrong, lists).map(|(seed, call)| Place::List(seed, call)),
    });
    Ok(second.chain(third).collect())
}

/// How many were told apart, and how many there are.
pub fn count(variants: &[Told]) -> (usize, usize) {
    (variants.iter().filter(|told| told.at.is_some()).count(), variants.len())
}

pub fn print(variants: &[Told]) {
    for Told { name, says, at } in variants {
        match at {
            Some(at) => println!("told apart: {name} ({says}): {at}"),
            None => println!("NOT told apart: {name} ({says})"),
        }
    }
}

//! The library's boundary byte by byte, and the library with one thing wrong in what it leaves or says: each must be told apart.

use crate::compare::{maker, run_list};
use crate::generate::Profile;
use library::Spoiled;
use std::process::ExitCode;

const LISTS: u64 = 20;
const CALLS: usize = 400;
/// Of many that are wrong, so many are shown.
const SHOWN: usize = 10;

/// The seed whose list tells it apart.
fn told(spoiled: Spoiled) -> Option<u64> {
    let make = maker(&format!("library:{spoiled:?}"))?;
    (1..=LISTS).find(|seed| run_list(*seed, Profile::of_seed(*seed), CALLS, &make, &mut |_| {}).is_err())
}

pub fn main() -> ExitCode {
    crate::compare::pair::quiet();
    let wrong = [
        library::wrong_arguments(),
        library::wrong_flags(),
        library::wrong_fresh_device(),
    ]
    .concat();
    for what in wrong.iter().take(SHOWN) {
        println!("FAILED: {what}");
    }
    println!("every byte as argument and as flag: {} wrong", wrong.len());
    let untold: Vec<Spoiled> = Spoiled::ALL
        .into_iter()
        .filter(|spoiled| told(*spoiled).is_none())
        .collect();
    for spoiled in &untold {
        println!("NOT told apart: the library with {spoiled:?} wrong");
    }
    let all = Spoiled::ALL.len();
    println!("{} of {all} spoiled libraries told apart", all - untold.len());
    crate::status(untold.is_empty() && wrong.is_empty())
}

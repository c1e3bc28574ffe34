//! Document 01's corners put to the source one by one, each under a name, and those of requests Two, Three and Five; those of document 02's pages and
//! of rows that turn at 1,024 tombstones, which the source has not, to the second and the third statement.

mod bench;
mod copies;
mod counts;
mod custody;
mod differences;
mod drills;
mod exchange;
mod exhaustive;
mod files;
mod limit;
mod lost;
mod pages;
mod plain;
mod refusals;
mod restored;
mod searched;
mod tombs;

use crate::compare::pair::caught;
use rules::Wrong;

/// What a check found wrong, if anything.
pub type Outcome = Result<(), String>;
pub type Check = (&'static str, fn() -> Outcome);

pub fn same<T: PartialEq + std::fmt::Debug>(got: T, want: T) -> Outcome {
    if got == want {
        Ok(())
    } else {
        Err(format!("got {got:?}, want {want:?}"))
    }
}

pub fn holds(condition: bool, what: &str) -> Outcome {
    if condition { Ok(()) } else { Err(what.into()) }
}

/// The source stops here: it would leave a number's range, or it expects what is not so.
pub fn stops<T>(what: impl FnOnce() -> T) -> Outcome {
    match caught("source", what) {
        Err(_) => Ok(()),
        Ok(_) => Err("the source did not stop".into()),
    }
}

const GROUPS: [(&str, &[Check]); 15] = [
    ("chain, courier, state, kdf, data", plain::CHECKS),
    ("custody", custody::CHECKS),
    ("exchange", exchange::CHECKS),
    ("tombstoned window tags", lost::CHECKS),
    ("the count of an inventory's end", searched::CHECKS),
    ("tombs and maintenance", tombs::CHECKS),
    ("rows that turn at 1,024", limit::CHECKS),
    ("rows and files", files::CHECKS),
    ("rows with 0 copies", copies::CHECKS),
    ("screen pages", pages::CHECKS),
    ("refusals", refusals::CHECKS),
    ("drill", drills::CHECKS),
    ("source and document differ", differences::CHECKS),
    ("restore and load", restored::CHECKS),
    ("short inputs, all of them", exhaustive::CHECKS),
];

fn outcome(check: &fn() -> Outcome) -> Outcome {
    caught("check", check).and_then(|outcome| outcome)
}

/// The check of rows with 0 copies that a wrong variant of the second statement fails.
pub fn told(wrong: Wrong) -> Option<&'static str> {
    let mut checks = copies::CHECKS.iter();
    let failed = bench::beside(wrong, || checks.find(|(_, check)| outcome(check).is_err()));
    failed.map(|(name, _)| *name)
}

/// Runs every check; the number that passed and the number that failed.
pub fn run() -> (usize, usize) {
    let (mut passed, mut failed) = (0, 0);
    for (group, checks) in GROUPS {
        let before = failed;
        for (name, check) in checks {
            match outcome(check) {
                Ok(()) => passed += 1,
                Err(what) => {
                    failed += 1;
                    println!("FAILED: {group}: {name}: {what}");
                }
            }
        }
        let word = if failed == before { "ok" } else { "FAILED" };
        println!("{word}: {group}: {} checks", checks.len());
    }
    (passed, failed)
}

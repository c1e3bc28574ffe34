//! The oracle's one program: comparison, drill, logs and checks.

mod changed;
mod checks;
mod compare;
mod drill;
mod garbage;
mod generate;
mod lost;
mod sample;
#[cfg(feature = "library")]
mod spoiled;
#[cfg(feature = "library")]
mod tags;
mod tally;
mod variants;
mod vectors;

use std::io::{Read, Write};
use std::process::ExitCode;

const USAGE: &str =
    "usage: oracle compare --seeds FROM..TO --calls N [--profile P] [--against PARTY] [--tally] [--reach]
       oracle changed FROM..TO N [PARTY]
                                    what request Two changes, against the source as it lies
       oracle garbage FROM..TO N [--reach]    the library on garbage areas, by seeds
       oracle spoiled               every byte at the library's boundary, and the library with one thing wrong
       oracle tags N                N of the library's tags, delivery secrets and commitments, and those with one thing wrong
       oracle drill                 a drill log on standard input
       oracle log SEED RECORDS [--no-13]
                                    a random drill log; with the option no record of it meets 13
       oracle sample SEEDS CALLS    random calls with their answers, for crates/replay
       oracle corners               document 01's corners, put to the source one by one
       oracle vectors               hashes of many inputs, for an independent implementation
       oracle variants [LISTS]      the wrong variants of the second and the third statement";

/// The option for a log without 13.
/// At so many tombstones or more one goes before another comes.
pub const TOMBSTONE_LIMIT: usize = 1024;

const NO_13: &str = "--no-13";

pub fn status(well: bool) -> ExitCode {
    if well { ExitCode::SUCCESS } else { ExitCode::FAILURE }
}

fn drill_from_input() -> ExitCode {
    let mut log = Vec::new();
    if let Err(error) = std::io::stdin().read_to_end(&mut log) {
        eprintln!("drill: {error}");
        return ExitCode::FAILURE;
    }
    let judged = drill::judged(&log);
    print!("{}", judged.lines);
    let left = judged.records - judged.of_the_source;
    if left > 0 {
        eprintln!(
            "drill: {} of {} records are the source's; with record {} a row turned with 1,024 tombstones there, and from it on the second statement \
             answers, with which the third agrees",
            judged.of_the_source,
            judged.records,
            judged.of_the_source + 1
        );
    }
    ExitCode::SUCCESS
}

fn print_log(arguments: &[String]) -> ExitCode {
    let (options, numbers): (Vec<&String>, Vec<&String>) = arguments.iter().partition(|word| *word == NO_13);
    let numbers: Option<Vec<u64>> = numbers.iter().map(|text| text.parse().ok()).collect();
    let Some([seed, records]) = numbers.as_deref() else {
        return usage();
    };
    let made = generate::logs::log(*seed, *records as usize, options.is_empty());
    if let Some(why) = made.stopped {
        eprintln!("log: record {} of {records} meets 13 ({why}) and ends it", made.records);
    }
    status(std::io::stdout().write_all(&made.log).is_ok())
}

fn print_variants(arguments: &[String]) -> ExitCode {
    compare::pair::quiet();
    let lists = arguments.first().and_then(|text| text.parse().ok()).unwrap_or(300);
    let variants = match variants::all(lists) {
        Ok(variants) => variants,
        Err(what) => {
            println!("{what}");
            return ExitCode::FAILURE;
        }
    };
    variants::print(&variants);
    let (told, all) = variants::count(&variants);
    println!("{told} of {all} wrong variants told apart");
    status(told == all)
}

fn run_corners() -> ExitCode {
    compare::pair::quiet();
    let (passed, failed) = checks::run();
    println!("{passed} named checks passed, {failed} failed");
    status(failed == 0)
}

/// Says which words have no meaning here, and which do.
pub fn usage() -> ExitCode {
    let words: Vec<String> = std::env::args().skip(1).collect();
    eprintln!(
        "oracle: these words are none of the below, or a number in them is wrong: '{}'\n{USAGE}",
        words.join(" ")
    );
    ExitCode::FAILURE
}

fn main() -> ExitCode {
    let arguments: Vec<String> = std::env::args().skip(1).collect();
    match arguments.split_first() {
        Some((command, rest)) if command == "compare" => compare::main(rest),
        Some((command, [])) if command == "drill" => drill_from_input(),
        Some((command, rest)) if command == "log" => print_log(rest),
        Some((command, rest)) if command == "variants" => print_variants(rest),
        Some((command, rest)) if command == "sample" => sample::main(rest).unwrap_or_else(usage),
        Some((command, rest)) if command == "changed" => changed::main(rest).unwrap_or_else(usage),
        Some((command, [])) if command == "corners" => run_corners(),
        #[cfg(feature = "library")]
        Some((command, rest)) if command == "garbage" => garbage::main(rest).unwrap_or_else(usage),
        #[cfg(feature = "library")]
        Some((command, [])) if command == "spoiled" => spoiled::main(),
        #[cfg(feature = "library")]
        Some((command, rest)) if command == "tags" => tags::main(rest).unwrap_or_else(usage),
        Some((command, [])) if command == "vectors" => {
            vectors::print();
            ExitCode::SUCCESS
        }
        _ => usage(),
    }
}

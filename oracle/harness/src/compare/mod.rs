//! The judge beside another post, on random lists of calls.

pub mod judge;
pub mod pair;
pub mod shrink;

use crate::generate::{Generator, Profile};
use crate::tally::Tally;
use judge::{By, Seen};
use pair::Pair;
use post::{Call, Post, Sizes};
use rules::{Rules, Wrong};
use std::process::ExitCode;

/// Makes the other post. A later party is one more case in `maker`.
pub type Maker = dyn Fn(Sizes) -> Box<dyn Post>;

pub fn maker(name: &str) -> Option<Box<Maker>> {
    match name {
        "rules" => Some(Box::new(|sizes| Box::new(Rules::new(sizes)))),
        "lent" => Some(Box::new(|sizes| Box::new(lent::Model::new(sizes)))),
        #[cfg(feature = "library")]
        "library" => Some(Box::new(|sizes| Box::new(library::Library::new(sizes)))),
        #[cfg(feature = "library")]
        _ if name.starts_with("library:") => {
            let spoiled = library::Spoiled::named(name.strip_prefix("library:")?)?;
            Some(Box::new(move |sizes| {
                Box::new(library::Library::spoiled(sizes, spoiled))
            }))
        }
        _ => {
            let wrong = wrong_variant(name.strip_prefix("wrong:")?)?;
            Some(Box::new(move |sizes| Box::new(Rules::wrong_in(sizes, wrong))))
        }
    }
}

fn wrong_variant(name: &str) -> Option<Wrong> {
    Wrong::ALL.iter().copied().find(|wrong| format!("{wrong:?}") == name)
}

/// A list of calls on which the posts differ.
pub struct Found {
    pub sizes: Sizes,
    pub calls: Vec<Call>,
    pub what: String,
}

/// A list of so many calls; the calls run until the first difference.
pub fn run_list(
    seed: u64,
    profile: Profile,
    count: usize,
    make: &Maker,
    seen: &mut impl FnMut(&Seen),
) -> Result<(), Box<Found>> {
    let mut generator = Generator::new(seed, profile);
    let sizes = generator.sizes;
    let mut pair = Pair::new(sizes, make(sizes));
    let mut calls = Vec::with_capacity(count);
    for _ in 0..count {
        calls.push(generator.next(pair.state()));
        let call = calls.last().expect("just made");
        if let Err(what) = pair.step(call, seen) {
            return Err(Box::new(Found { sizes, calls, what }));
        }
    }
    pair.finish().map_err(|what| Box::new(Found { sizes, calls, what }))
}

pub struct Options {
    pub from: u64,
    pub to: u64,
    pub calls: usize,
    pub profile: Option<Profile>,
    pub against: String,
    pub tally: bool,
    pub reach: bool,
}

impl Options {
    fn read(arguments: &[String]) -> Option<Self> {
        let mut options = Self {
            from: 1,
            to: 0,
            calls: 0,
            profile: None,
            against: "rules".into(),
            tally: false,
            reach: false,
        };
        let mut rest = arguments.iter();
        while let Some(name) = rest.next() {
            match name.as_str() {
                "--seeds" => {
                    let (from, to) = rest.next()?.split_once("..")?;
                    (options.from, options.to) = (from.parse().ok()?, to.parse().ok()?);
                }
                "--calls" => options.calls = rest.next()?.parse().ok()?,
                "--profile" => options.profile = Some(Profile::named(rest.next()?)?),
                "--against" => options.against = rest.next()?.clone(),
                "--tally" => options.tally = true,
                "--reach" => options.reach = true,
                _ => return None,
            }
        }
        (options.from <= options.to && options.calls > 0).then_some(options)
    }
}

/// Lists of bytes as hex digits, for tags and secrets.
fn in_hex(text: &str) -> String {
    let mut parts = text.split('[');
    let mut out = parts.next().unwrap_or_default().to_string();
    for part in parts {
        let Some((inside, after)) = part.split_once(']') else {
            out += &format!("[{part}");
            continue;
        };
        let bytes: Result<Vec<u8>, _> = inside.split(", ").map(str::parse).collect();
        match bytes {
            Ok(bytes) => out += &format!("{}{after}", hashes::hex(&bytes)),
            Err(_) => out += &format!("[{inside}]{after}"),
        }
    }
    out
}

fn report(seed: u64, found: Found, make: &Maker) {
    let total = found.calls.len();
    let calls = shrink::shortest(found.sizes, make, found.calls);
    let shown = shrink::difference(found.sizes, make, &calls);
    println!("seed {seed}, call {total}: {}", in_hex(&found.what));
    println!("the shortest list that shows a difference, with {:?}:", found.sizes);
    for (place, call) in calls.iter().enumerate() {
        println!("  {}. {}", place + 1, in_hex(&format!("{call:?}")));
    }
    if let Some((place, what)) = shown {
        println!("  after call {}: {}", (place + 1).min(calls.len()), in_hex(&what));
    }
    println!("first difference: seed {seed}, call {total}; again with --seeds {seed}..{seed} --calls {total}");
}

/// `calls` in all, shared out among the seeds; true if no list shows a difference.
pub fn run(options: &Options, tally: &mut Tally) -> Option<bool> {
    let make = maker(&options.against)?;
    let lists = options.to - options.from + 1;
    let (each, over) = (options.calls as u64 / lists, options.calls as u64 % lists);
    for seed in options.from..=options.to {
        #[cfg(feature = "library")]
        library::watch(seed);
        let count = each + u64::from(seed - options.from < over);
        let profile = options.profile.unwrap_or_else(|| Profile::of_seed(seed));
        if let Err(found) = run_list(seed, profile, count as usize, &make, &mut |seen| tally.count(seen)) {
            report(seed, *found, &make);
            return Some(false);
        }
    }
    Some(true)
}

pub fn main(arguments: &[String]) -> ExitCode {
    let Some(options) = Options::read(arguments) else {
        return crate::usage();
    };
    pair::quiet();
    let mut tally = Tally::default();
    let Some(same) = run(&options, &mut tally) else {
        eprintln!("no party of the name {}", options.against);
        return ExitCode::FAILURE;
    };
    if options.tally || options.reach {
        println!("{tally}");
    }
    if !same {
        return ExitCode::FAILURE;
    }
    let missed = if options.reach { tally.missed() } else { Vec::new() };
    for what in &missed {
        println!("never reached: {what}");
    }
    let (lists, left) = (options.to - options.from + 1, tally.judged(By::Leaving));
    println!(
        "{left} of {lists} lists left the comparison with the source: a row turned with 1,024 tombstones or more there"
    );
    let [reads, loads, rows] = tally.without_copies();
    println!(
        "{rows} carried rows left the comparison with the source, in {reads} row reads and {loads} loads: they have 0 copies, and the source read them with 1"
    );
    println!(
        "compared with the source: {} calls; with the second statement, and the third agreed: {} pages, {} calls from where their list left on",
        tally.judged(By::Source),
        tally.judged(By::Statements),
        left + tally.judged(By::Left)
    );
    println!("{} calls, 0 differences", options.calls);
    crate::status(missed.is_empty())
}

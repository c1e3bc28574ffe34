//! Times the proved library beside Rust and libcrypto: see README.md.

mod calls;
mod cases;
mod envelopes;
mod flat;
mod hashes;
mod keys;
mod library;
mod listed;
mod measured;
mod pages;
mod pair;
mod screen;
mod tags;
mod timing;

use std::env::args;
use std::process::exit;

const PARTS: [(&str, fn()); 7] = [
    ("hashes", hashes::run),
    ("keys", keys::run),
    ("tags", tags::run),
    ("envelopes", envelopes::run),
    ("pages", pages::run),
    ("listed", listed::run),
    ("calls", measured::run),
];

/// The parts that are named, or all of them.
fn main() {
    let named: Vec<String> = args().skip(1).collect();
    let known = |name: &String| PARTS.iter().any(|(part, _)| part == name);
    if let Some(name) = named.iter().find(|name| !known(name)) {
        eprintln!("bench: no part '{name}'; there are hashes, keys, tags, envelopes, pages, listed, calls");
        exit(2);
    }
    for (part, run) in PARTS {
        if named.is_empty() || named.iter().any(|name| name == part) {
            run();
        }
    }
}

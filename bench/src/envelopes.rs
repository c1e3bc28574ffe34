//! 10,000 envelopes to a post with 256 carried rows: the library beside the source and beside plain Rust written for it.

use crate::flat::Flat;
use crate::pair::{Pair, Shape, envelope};
use crate::timing::each;
use post::{Answer, Call, Custody, Envelope, Reply};
use std::hint::black_box;

const ROWS: usize = 256;
const ENVELOPES: usize = 10_000;
const ROUNDS: usize = 40;
const CONTACTS: usize = 9;

/// 256 carried rows and nothing else.
const SHAPE: Shape = Shape {
    contacts: CONTACTS,
    carried: ROWS,
    own: 0,
    tombstones: 0,
    listed: 0,
    window: 0,
    bad_tags: 0,
    at_quota: false,
    delivered: false,
};

/// Half of them have the tag of a carried row, spread over all rows; the others have one that no row has.
fn input() -> Vec<(u64, Envelope)> {
    let number = |i: usize| {
        if i.is_multiple_of(2) { i / 2 * 37 % ROWS } else { ROWS + i }
    };
    let sized = |number: usize| envelope(number, [48, 80, 144, 272][number % 4]);
    (0..ENVELOPES).map(|i| ((i % CONTACTS) as u64 + 1, sized(number(i)))).collect()
}

/// The plain program with the rows of the pair.
fn flat_of(pair: &Pair) -> Flat {
    let mut flat = Flat::new((1..=CONTACTS as u64).map(|id| (id, true)).collect(), 6_000);
    let mut replies = Vec::new();
    for (_, held) in &pair.held {
        if let post::Held::Carried { depositor, envelope } = held {
            flat.receive_envelope(*depositor, envelope, &mut replies);
        }
    }
    assert!(replies.iter().all(|(_, code)| *code == Custody::Accepted), "a row that the plain program does not take");
    flat
}

/// Every envelope gets the same code from each; half are Duplicate and half Full.
fn compare(pair: &mut Pair, flat: &mut Flat, calls: &[Call]) {
    let mut codes = [0; 5];
    for call in calls {
        let said = pair.library.run(call);
        let answer = pair.library.answer(call, &said);
        let ready = pair.source.ready(call).expect("the source has envelopes");
        let gave = pair.source.run(ready);
        assert!(answer == pair.source.answer(call, gave), "a code that differs from the source's");
        let Call::Envelope { peer, envelope, .. } = call else {
            unreachable!("envelopes only");
        };
        let mut replies = Vec::new();
        flat.receive_envelope(*peer, envelope, &mut replies);
        let [(tag, code)] = replies[..] else {
            unreachable!("one code for each");
        };
        let replies = vec![Reply::Custody(tag, code)];
        let expected = Answer::Done { malformed: false, replies, actions: Vec::new(), searched: 0 };
        assert!(answer == expected, "a code that differs from the plain program's");
        codes[usize::from(code.code())] += 1;
    }
    assert!(codes == [0, ENVELOPES / 2, ENVELOPES / 2, 0, 0], "not half Full and half Duplicate");
}

pub fn run() {
    let mut pair = Pair::new(SHAPE);
    let mut flat = flat_of(&pair);
    let input = input();
    let call = |(peer, envelope): &(u64, Envelope)| Call::Envelope {
        areas: pair.areas,
        window: Vec::new().into(),
        peer: *peer,
        envelope: envelope.clone(),
    };
    let calls: Vec<Call> = input.iter().map(call).collect();
    compare(&mut pair, &mut flat, &calls);
    let mut least = [f64::MAX; 3];
    for _ in 0..ROUNDS {
        let library = &mut pair.library;
        least[0] = least[0].min(each(calls.iter().collect(), |call| {
            black_box(library.run(call));
        }));
        let source = &mut pair.source;
        let ready = calls.iter().filter_map(|call| source.ready(call)).collect();
        least[1] = least[1].min(each(ready, |ready| source.run(ready)));
        let mut replies = Vec::with_capacity(ENVELOPES);
        least[2] = least[2].min(each(input.iter().collect(), |(peer, envelope)| {
            flat.receive_envelope(*peer, envelope, &mut replies);
        }));
    }
    print(least);
}

fn print(least: [f64; 3]) {
    println!("\n| {ENVELOPES} envelopes to {ROWS} rows, half Duplicate and half Full | ns each | library of it |");
    println!("|---|---|---|");
    for (name, time) in ["library", "the source", "Rust with its rows in one `Vec`"].into_iter().zip(least) {
        println!("| {name} | {:.0} | {:.2} |", time / ENVELOPES as f64, least[0] / time);
    }
}

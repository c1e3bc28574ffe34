//! Least times, over rounds in which the contestants take turns.

use std::hint::black_box;
use std::time::{Duration, Instant};

/// Times that a contestant is asked in a turn.
const TURN: usize = 4;

/// The least nanoseconds that a call of each took, over `rounds` of `calls` calls.
pub fn best(rounds: usize, calls: usize, contestants: &[&dyn Fn()]) -> Vec<f64> {
    let mut least = vec![f64::MAX; contestants.len()];
    for _ in 0..rounds {
        for (contestant, least) in contestants.iter().zip(&mut least) {
            let start = Instant::now();
            for _ in 0..calls {
                contestant();
            }
            *least = least.min(start.elapsed().as_nanos() as f64 / calls as f64);
        }
    }
    least
}

/// Nanoseconds of a call for each input. The inputs were made before, and the outputs are dropped after.
pub fn each<I, O>(inputs: Vec<I>, call: impl FnMut(I) -> O) -> f64 {
    let mut inputs = black_box(inputs);
    let mut outputs = Vec::with_capacity(inputs.len());
    let start = Instant::now();
    outputs.extend(inputs.drain(..).map(call));
    let time = start.elapsed().as_nanos() as f64;
    drop(black_box(outputs));
    time
}

/// The least nanoseconds of each of two, as they say themselves, less those of a call that does nothing.
pub fn in_turns(budget: Duration, one: &mut dyn FnMut() -> f64, two: &mut dyn FnMut() -> f64) -> [f64; 2] {
    let (mut nothing, mut least) = (f64::MAX, [f64::MAX; 2]);
    let start = Instant::now();
    while start.elapsed() < budget {
        nothing = nothing.min(each(vec![()], |()| ()));
        for _ in 0..TURN {
            least[0] = least[0].min(one());
        }
        for _ in 0..TURN {
            least[1] = least[1].min(two());
        }
    }
    least.map(|time| time - nothing)
}

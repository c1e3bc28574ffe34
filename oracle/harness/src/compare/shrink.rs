//! The shortest list that still shows a difference.

use super::Maker;
use super::pair::Pair;
use post::{Bytes, Call, Sizes};

/// What the list shows, and after how many calls.
pub fn difference(sizes: Sizes, make: &Maker, calls: &[Call]) -> Option<(usize, String)> {
    let mut pair = Pair::new(sizes, make(sizes));
    for (place, call) in calls.iter().enumerate() {
        if let Err(what) = pair.step(call, &mut |_| {}) {
            return Some((place, what));
        }
    }
    pair.finish().err().map(|what| (calls.len(), what))
}

/// Without a part of the list, as long as the difference stays; parts get smaller down to one call.
fn without_parts(sizes: Sizes, make: &Maker, mut calls: Vec<Call>) -> Vec<Call> {
    let mut part = (calls.len() / 2).max(1);
    loop {
        let mut at = 0;
        while at < calls.len() {
            let end = (at + part).min(calls.len());
            let shorter = [&calls[..at], &calls[end..]].concat();
            match difference(sizes, make, &shorter) {
                Some((place, _)) => {
                    calls = shorter;
                    calls.truncate(place + 1);
                }
                None => at = end,
            }
        }
        if part == 1 {
            return calls;
        }
        part = part.div_ceil(2);
    }
}

/// The same call with less in it.
fn simpler(call: &Call) -> Option<Call> {
    let mut call = call.clone();
    let area: &mut Bytes = match &mut call {
        Call::Envelope { window, .. } | Call::Inventory { window, .. } => window,
        _ => return None,
    };
    if area.is_empty() {
        return None;
    }
    area.clear();
    Some(call)
}

/// Every call with as little in it as the difference allows.
fn with_less(sizes: Sizes, make: &Maker, mut calls: Vec<Call>) -> Vec<Call> {
    for place in 0..calls.len() {
        if let Some(less) = simpler(&calls[place]) {
            let before = std::mem::replace(&mut calls[place], less);
            if difference(sizes, make, &calls).is_none() {
                calls[place] = before;
            }
        }
    }
    calls
}

/// A call with less in it may need fewer calls before it, so the list is gone over twice.
pub fn shortest(sizes: Sizes, make: &Maker, calls: Vec<Call>) -> Vec<Call> {
    let calls = without_parts(sizes, make, calls);
    let calls = with_less(sizes, make, calls);
    without_parts(sizes, make, calls)
}

//! The judge beside another post, one call at a time.

use super::judge::{Judge, Seen};
use post::{Call, Post, Sizes, State};
use std::cell::Cell;
use std::panic::{AssertUnwindSafe, catch_unwind, set_hook, take_hook};

thread_local! {
    static CATCHING: Cell<bool> = const { Cell::new(false) };
}

/// What a party says when it stops is part of the difference and not printed twice.
pub fn quiet() {
    let usual = take_hook();
    set_hook(Box::new(move |panic| {
        if !CATCHING.get() {
            usual(panic);
        }
    }));
}

/// A party that stops on a call has not answered it.
pub fn caught<T>(who: &str, run: impl FnOnce() -> T) -> Result<T, String> {
    let before = CATCHING.replace(true);
    let result = catch_unwind(AssertUnwindSafe(run));
    CATCHING.set(before);
    result.map_err(|payload| {
        let text = payload
            .downcast_ref::<String>()
            .cloned()
            .or_else(|| payload.downcast_ref::<&str>().map(|text| text.to_string()));
        format!("{who} stopped: {}", text.unwrap_or_default())
    })
}

/// The names of two parties in what is said of them.
type Names<'a> = [&'a str; 2];

fn list_difference<T: PartialEq + std::fmt::Debug>(names: Names, what: &str, one: &[T], two: &[T]) -> Option<String> {
    let [first, second] = names;
    let place = (0..one.len().max(two.len())).find(|place| one.get(*place) != two.get(*place))?;
    let show = |list: &[T]| list.get(place).map_or("none".into(), |item| format!("{item:?}"));
    Some(format!(
        "{what} {place} of {}: {first} {}, {second} {} (of {})",
        one.len(),
        show(one),
        show(two),
        two.len()
    ))
}

/// The first thing in which two states differ; nothing is said where they are equal.
pub(super) fn state_difference(names: Names, one: &State, two: &State) -> String {
    let [first, second] = names;
    let bad = |state: &State| state.bad.iter().copied().collect::<Vec<_>>();
    let value =
        |what: &str, one: String, two: String| (one != two).then(|| format!("{what}: {first} {one}, {second} {two}"));
    list_difference(names, "held row", &one.held, &two.held)
        .or_else(|| list_difference(names, "own row", &one.own, &two.own))
        .or_else(|| list_difference(names, "contact", &one.contacts, &two.contacts))
        .or_else(|| list_difference(names, "bad tag", &bad(one), &bad(two)))
        .or_else(|| list_difference(names, "exchange", &one.exchanges, &two.exchanges))
        .or_else(|| value("next slot", one.next_slot.to_string(), two.next_slot.to_string()))
        .or_else(|| value("clock", one.clock.to_string(), two.clock.to_string()))
        .or_else(|| value("setting", format!("{:?}", one.setting), format!("{:?}", two.setting)))
        .unwrap_or_default()
}

/// The other post takes the call as well: the first thing in which it differs from what was seen, and who judged it.
pub fn difference(other: &mut dyn Post, seen: &Seen) -> Result<(), String> {
    taken_by(other, seen).map_err(|what| format!("{what}; the judge is {}", seen.by))
}

fn taken_by(other: &mut dyn Post, seen: &Seen) -> Result<(), String> {
    let answer = caught("other", || other.perform(seen.call))?;
    if !seen.answer.agrees(&answer) {
        return Err(format!("answer: judge {:?}, other {answer:?}", seen.answer));
    }
    let state = other.state();
    if *seen.after != *state {
        return Err(state_difference(["judge", "other"], seen.after, &state));
    }
    match other.stray_writes().first() {
        None => Ok(()),
        Some(place) => Err(format!("written though not said to be: {place}")),
    }
}

/// The judge and another post, call by call.
pub struct Pair {
    judge: Judge,
    other: Box<dyn Post>,
}

impl Pair {
    pub fn new(sizes: Sizes, other: Box<dyn Post>) -> Self {
        Self {
            judge: Judge::new(sizes),
            other,
        }
    }

    pub fn state(&self) -> &State {
        self.judge.held()
    }

    pub fn step(&mut self, call: &Call, also: &mut impl FnMut(&Seen)) -> Result<(), String> {
        let other = &mut *self.other;
        self.judge.take(call, |seen| {
            difference(other, seen)?;
            also(seen);
            Ok(())
        })?
    }

    pub fn finish(self) -> Result<(), String> {
        self.judge.finish()
    }
}

//! What a run on garbage areas met, and how often.

use super::{cells, copies, counts, fetches, pages, turns};
use lent::{Areas, Outcome, Said};
use post::Call;
use std::collections::BTreeMap;

#[derive(Default)]
pub struct Reach {
    cells: BTreeMap<&'static str, u64>,
    pages: BTreeMap<&'static str, u64>,
    fetches: BTreeMap<&'static str, u64>,
    counts: BTreeMap<&'static str, u64>,
    turns: BTreeMap<&'static str, u64>,
    copies: BTreeMap<&'static str, u64>,
}

/// What a call meets in the areas before it.
pub struct Before {
    fetches: Met,
    counts: Option<counts::Before>,
    turns: Option<turns::Before>,
    copies: Option<copies::Before>,
}

impl Before {
    pub fn of(areas: &Areas, call: &Call) -> Self {
        Self {
            fetches: fetches::met(areas, call),
            counts: counts::Before::of(areas, call),
            turns: turns::Before::of(areas, call),
            copies: copies::Before::of(areas, call),
        }
    }
}

/// What a call met: each name, and whether.
pub type Met = Vec<(&'static str, bool)>;

fn add(counts: &mut BTreeMap<&'static str, u64>, met: Met) {
    for (name, met) in met {
        *counts.entry(name).or_default() += u64::from(met);
    }
}

impl Reach {
    /// A call: what it met before it, fetches if it was answered; the areas are those after it.
    pub fn count(&mut self, before: Before, areas: &Areas, call: &Call, outcome: &Outcome) {
        if matches!(outcome.said, Said::Ended { .. }) {
            add(&mut self.fetches, before.fetches);
        }
        if let Some(counts) = before.counts {
            add(&mut self.counts, counts.met(outcome));
        }
        if let Some(turns) = before.turns {
            add(&mut self.turns, turns.met(outcome));
        }
        if let Some(copies) = before.copies {
            add(&mut self.copies, copies.met(areas, call, outcome));
        }
        add(&mut self.cells, cells::met(areas, call, outcome));
        add(&mut self.pages, pages::met(call, outcome));
    }
}

#[cfg(feature = "library")]
impl Reach {
    /// A group of counts: what they are of, the names that should be reached, the counts.
    fn groups(&self) -> [(&'static str, &'static [&'static str], &BTreeMap<&'static str, u64>); 6] {
        [
            ("rows whose cell does not count", &cells::ALL, &self.cells),
            ("pages", &pages::ALL, &self.pages),
            ("fetches and tombstones", &fetches::ALL, &self.fetches),
            ("counts", &counts::ALL, &self.counts),
            ("rows that turn", &turns::ALL, &self.turns),
            ("rows with 0 copies", &copies::ALL, &self.copies),
        ]
    }

    pub fn missed(&self) -> Vec<String> {
        let mut missed = Vec::new();
        for (what, names, counts) in self.groups() {
            let never = names
                .iter()
                .filter(|name| counts.get(*name).is_none_or(|count| *count == 0));
            missed.extend(never.map(|name| format!("{what}: {name}")));
        }
        missed
    }

    pub fn lines(&self) -> Vec<String> {
        let line = |(what, _, counts): (&str, _, &BTreeMap<&str, u64>)| {
            let parts: Vec<String> = counts.iter().map(|(name, count)| format!("{name} {count}")).collect();
            format!("reached, {what}: {}", parts.join(", "))
        };
        self.groups().map(line).to_vec()
    }
}

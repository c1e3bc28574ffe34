//! What a run reached: every answer, refusal number, custody code, reply and action, and the corners by name.

mod copies;
mod envelopes;
mod exchanges;
mod lost;
mod pages;
mod rows;
mod searched;
mod turned;

pub use copies::READ_BACK;
pub use lost::CORNERS as LOST_FETCHES;
pub use searched::CORNERS as COUNTS;
pub use turned::TURNS;

use crate::compare::judge::{By, Seen, read_with_1};
use post::{Action, Answer, Custody, Kind, Reply, said};
use std::collections::BTreeMap;
use std::fmt;

/// A corner: its name, and whether a call met it.
pub type Corner = (&'static str, fn(&Seen) -> bool);

#[derive(Default)]
pub struct Tally {
    judged: BTreeMap<By, u64>,
    /// Calls from where their list left the comparison with the source on. Of these nothing else counts but the corners of request Four and pages.
    left: BTreeMap<Kind, u64>,
    /// Row reads and loads in which the source read carried rows of 0 copies with 1 copy, 0 put back, and how many such rows. Of them nothing else
    /// counts but the corners of request Five.
    read_with_1: BTreeMap<Kind, u64>,
    rows_read_with_1: usize,
    calls: BTreeMap<Kind, u64>,
    refused: BTreeMap<(Kind, u8), u64>,
    answers: BTreeMap<(Kind, &'static str), u64>,
    codes: BTreeMap<Custody, u64>,
    replies: BTreeMap<&'static str, u64>,
    actions: BTreeMap<&'static str, u64>,
    corners: BTreeMap<&'static str, u64>,
}

const REPLIES: [&str; 4] = ["fetch", "envelope", "custody", "tomb"];
const ACTIONS: [&str; 3] = ["put", "delete", "own put"];

/// The answers that are no refusals, for each kind of call.
fn answers(kind: Kind) -> &'static [&'static str] {
    match kind {
        Kind::Contact | Kind::Setting | Kind::Clock | Kind::FreshExchange | Kind::Load => &["nothing"],
        Kind::Envelope => &["replies", "ours"],
        Kind::Inventory => &["nothing", "replies", "malformed"],
        Kind::Fetch | Kind::Opened => &["replies"],
        Kind::CustodyCode | Kind::StoredTombstone | Kind::Maintenance => &["nothing", "actions"],
        Kind::Tomb => &["nothing", "actions", "malformed"],
        Kind::Failed => &["malformed"],
        Kind::OwnEnvelope => &["own row", "no envelope"],
        Kind::InventoryOfOurs => &["listed"],
        Kind::Window => &["window"],
        Kind::RowBlob => &["blob", "no such row"],
        Kind::RowRead => &["row", "no row"],
        Kind::Save => &["file"],
        Kind::Page => &["page"],
    }
}

fn answer_name(answer: &Answer) -> Option<&'static str> {
    Some(match answer {
        Answer::Refused(_) => return None,
        Answer::Done { malformed: true, .. } => "malformed",
        Answer::Done { replies, .. } if !replies.is_empty() => "replies",
        Answer::Done { actions, .. } if !actions.is_empty() => "actions",
        Answer::Done { .. } => "nothing",
        Answer::Ours { .. } => "ours",
        Answer::NoEnvelope => "no envelope",
        Answer::Own(_) => "own row",
        Answer::Listed(_) => "listed",
        Answer::Window(_) => "window",
        Answer::Blob(Some(_)) => "blob",
        Answer::Blob(None) => "no such row",
        Answer::Row(Some(_)) => "row",
        Answer::Row(None) => "no row",
        Answer::Saved(_) => "file",
        Answer::Page(_) => "page",
    })
}

/// What the source judges, and pages.
const OF_THE_SOURCE: [&[Corner]; 6] = [
    envelopes::CORNERS,
    exchanges::CORNERS,
    lost::CORNERS,
    searched::CORNERS,
    rows::CORNERS,
    pages::CORNERS,
];

/// Requests Four's and Five's.
const BESIDE_THE_SOURCE: [&[Corner]; 5] = [
    turned::TURNS,
    turned::SELDOM,
    turned::AFTER,
    copies::READ_BACK,
    copies::SELDOM,
];

fn all_corners() -> impl Iterator<Item = &'static Corner> {
    OF_THE_SOURCE.into_iter().chain(BESIDE_THE_SOURCE).flatten()
}

fn add<K: Ord>(counts: &mut BTreeMap<K, u64>, key: K) {
    *counts.entry(key).or_default() += 1;
}

impl Tally {
    pub fn count(&mut self, seen: &Seen) {
        let kind = seen.call.kind();
        add(&mut self.judged, seen.by);
        self.corners(&BESIDE_THE_SOURCE, seen);
        if matches!(seen.by, By::Leaving | By::Left) {
            add(&mut self.left, kind);
        }
        if seen.by == By::ReadWith1 {
            add(&mut self.read_with_1, kind);
            self.rows_read_with_1 += read_with_1(seen.call, seen.answer);
        }
        if seen.by != By::Source && kind.is_in_source() {
            return;
        }
        add(&mut self.calls, kind);
        match seen.answer {
            Answer::Refused(number) => add(&mut self.refused, (kind, *number)),
            answer => add(&mut self.answers, (kind, answer_name(answer).expect("not refused"))),
        }
        if let Answer::Done { replies, actions, .. } = seen.answer {
            replies.iter().for_each(|reply| self.reply(reply));
            actions.iter().for_each(|action| self.action(action));
        }
        self.corners(&OF_THE_SOURCE, seen);
    }

    fn corners(&mut self, groups: &[&'static [Corner]], seen: &Seen) {
        for (name, met) in groups.iter().copied().flatten() {
            if met(seen) {
                add(&mut self.corners, name);
            }
        }
    }

    fn reply(&mut self, reply: &Reply) {
        let name = match reply {
            Reply::Fetch(_) => REPLIES[0],
            Reply::Envelope(_) => REPLIES[1],
            Reply::Custody(_, code) => {
                add(&mut self.codes, *code);
                REPLIES[2]
            }
            Reply::Tomb(..) => REPLIES[3],
        };
        add(&mut self.replies, name);
    }

    fn action(&mut self, action: &Action) {
        let name = match action {
            Action::Put { .. } => ACTIONS[0],
            Action::Delete { .. } => ACTIONS[1],
            Action::OwnPut { .. } => ACTIONS[2],
        };
        add(&mut self.actions, name);
    }

    /// How many calls this judge had.
    pub fn judged(&self, by: By) -> u64 {
        self.judged.get(&by).copied().unwrap_or_default()
    }

    /// How many row reads and loads had carried rows with 0 copies, and how many such rows they had.
    pub fn without_copies(&self) -> [u64; 3] {
        let calls = |kind| self.read_with_1.get(&kind).copied().unwrap_or_default();
        [calls(Kind::RowRead), calls(Kind::Load), self.rows_read_with_1 as u64]
    }

    /// What a whole run should have reached and did not.
    pub fn missed(&self) -> Vec<String> {
        let mut missed = Vec::new();
        let mut need = |there: bool, what: String| {
            if !there {
                missed.push(what);
            }
        };
        for kind in Kind::ALL {
            for number in kind.numbers() {
                need(
                    self.refused.contains_key(&(kind, *number)),
                    format!("{kind:?} refused {number}"),
                );
            }
            need(
                self.left.contains_key(&kind),
                format!("{kind:?} in a list that has left"),
            );
            for answer in answers(kind) {
                need(
                    self.answers.contains_key(&(kind, answer)),
                    format!("{kind:?}: {answer}"),
                );
            }
        }
        for code in Custody::ALL {
            need(self.codes.contains_key(&code), format!("code {code:?}"));
        }
        for name in REPLIES {
            need(self.replies.contains_key(name), format!("reply {name}"));
        }
        for name in ACTIONS {
            need(self.actions.contains_key(name), format!("action {name}"));
        }
        for (name, _) in all_corners() {
            need(self.corners.contains_key(name), format!("corner: {name}"));
        }
        missed
    }

    fn refusal_line(&self, number: u8) -> String {
        let calls = self.refused.iter().filter(|((_, other), _)| *other == number);
        let parts: Vec<String> = calls.map(|((kind, _), count)| format!("{kind:?} {count}")).collect();
        parts.join(", ")
    }
}

fn listed<K: fmt::Debug>(counts: &BTreeMap<K, u64>) -> String {
    let parts: Vec<String> = counts
        .iter()
        .map(|(key, count)| format!("{key:?} {count}").replace('"', ""))
        .collect();
    parts.join(", ")
}

impl fmt::Display for Tally {
    fn fmt(&self, out: &mut fmt::Formatter<'_>) -> fmt::Result {
        writeln!(out, "reached, calls: {}", listed(&self.calls))?;
        writeln!(
            out,
            "reached, calls from where their list left on: {}",
            listed(&self.left)
        )?;
        for number in 1..=said::LAST_REFUSAL {
            writeln!(out, "reached, refused {number}: {}", self.refusal_line(number))?;
        }
        writeln!(out, "reached, codes: {}", listed(&self.codes))?;
        writeln!(out, "reached, replies: {}", listed(&self.replies))?;
        writeln!(out, "reached, actions: {}", listed(&self.actions))?;
        writeln!(out, "reached, answers: {}", listed(&self.answers))?;
        for (name, count) in &self.corners {
            writeln!(out, "reached, corner: {name}: {count}")?;
        }
        Ok(())
    }
}

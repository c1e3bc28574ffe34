//! Who says what a call must answer: the source. Where it has no such call, and where a list has left the comparison with it, the second
//! and the third statement, which must agree. A carried row with 0 copies, which the source reads with 1 copy, 0 put back, leaves the
//! comparison by itself.

use super::pair::{caught, state_difference};
use lent::Model;
use post::{Action, Answer, Call, FileRecord, Kind, Post, Sizes, State};
use reference::{Passed, Reference, raw};
use rules::Rules;
use std::borrow::Cow;
use std::fmt;

/// Who judged a call.
#[derive(Debug, Clone, Copy, PartialEq, Eq, PartialOrd, Ord)]
pub enum By {
    Source,
    /// The source, which read a carried row of 0 copies with 1 copy, 0 put back (request Five).
    ReadWith1,
    /// The statements, from what the source holds: it has no such call.
    Statements,
    /// The statements: with this call the list leaves the comparison with the source.
    Leaving,
    /// The statements: the list has left.
    Left,
}

impl fmt::Display for By {
    fn fmt(&self, out: &mut fmt::Formatter<'_>) -> fmt::Result {
        out.write_str(match self {
            Self::Source => "the source",
            Self::ReadWith1 => "the source, which read rows of 0 copies with 1",
            Self::Statements => "the second statement, and the third agreed: the source has no such call",
            Self::Leaving => "the second statement, and the third agreed: here the list leaves the source",
            Self::Left => "the second statement, and the third agreed: the list has left the source",
        })
    }
}

/// One call that both took, what it met and left, and who judged it and the call before it.
pub struct Seen<'a> {
    pub sizes: Sizes,
    pub before: &'a State,
    pub call: &'a Call,
    pub answer: &'a Answer,
    pub after: &'a State,
    pub by: By,
    pub last_by: Option<By>,
}

/// A refused call and a page change nothing, and a malformed one only where "failed" adds its bad tag.
fn must_change_nothing(call: &Call, answer: &Answer) -> bool {
    let failed = call.kind() == Kind::Failed;
    matches!(answer, Answer::Refused(_) | Answer::Page(_))
        || (matches!(answer, Answer::Done { malformed: true, .. }) && !failed)
}

/// How many carried rows of 0 copies the source read for an answer with 1 copy, 0 put back (request Five): those of a row read, and of a file
/// that is not refused by 8. Else the answer is the source's own.
pub fn read_with_1(call: &Call, answer: &Answer) -> usize {
    match (call, answer) {
        (Call::RowRead { blob }, Answer::Row(Some(_))) => usize::from(raw::is_without_copies(blob)),
        (Call::Load { .. }, Answer::Refused(8)) => 0,
        (Call::Load { file }, _) => {
            let records = post::records(file).expect("read");
            let is_one =
                |record: &FileRecord| matches!(record, FileRecord::Row(_, _, blob) if raw::is_without_copies(blob));
            records.into_iter().filter(is_one).count()
        }
        _ => 0,
    }
}

/// The second and the third statement, from one state on.
struct Statements {
    second: Rules,
    third: Model,
}

/// An answer, and what is held after the call.
type Taken = (Answer, State);

fn taken(who: &str, post: &mut dyn Post, call: &Call) -> Result<Taken, String> {
    caught(who, || (post.perform(call), post.state().into_owned()))
}

/// Two that differ: their answers, and the first thing held in which they do.
fn apart(what: &str, [first, second]: [&str; 2], one: &Taken, two: &Taken) -> String {
    let held = state_difference([first, second], &one.1, &two.1);
    format!("{what}: {first} {:?}, {second} {:?}; {held}", one.0, two.0)
}

impl Statements {
    fn holding(sizes: Sizes, state: &State) -> Self {
        Self {
            second: Rules::holding(sizes, state.clone()),
            third: Model::holding(sizes, state),
        }
    }

    /// What both say.
    fn take(&mut self, call: &Call) -> Result<Taken, String> {
        let second = taken("second statement", &mut self.second, call)?;
        let third = taken("third statement", &mut self.third, call)?;
        if second.0.agrees(&third.0) && second.1 == third.1 {
            Ok(second)
        } else {
            Err(apart(
                "the statements do not agree",
                ["second", "third"],
                &second,
                &third,
            ))
        }
    }
}

/// Where a list leaves, the source turns the row and deletes none. What the statements say must be the same but for one deletion, before
/// the put, and that of the row which the source deletes for a stored tombstone.
fn is_a_deletion_more(taken: &Taken, passed: &Passed) -> Result<(), String> {
    let mut wanted = (passed.answer.clone(), passed.state.clone());
    if let (Answer::Done { actions, .. }, Some(slot)) = (&mut wanted.0, passed.goes) {
        actions.insert(0, Action::Delete { slot });
        wanted.1.held.retain(|row| row.slot != slot);
    }
    if wanted == *taken {
        Ok(())
    } else {
        let names = ["statements", "source with its deletion"];
        Err(apart("the list leaves otherwise", names, taken, &wanted))
    }
}

/// The exchanges as the source has them are as its answers showed them.
fn is_as_shown(reference: Reference) -> Result<(), String> {
    let parts = caught("reference", || reference.dissected())?;
    match parts.iter().find(|(inside, shown)| inside != shown) {
        None => Ok(()),
        Some((inside, shown)) => Err(format!("exchange in the source {inside:?}, shown {shown:?}")),
    }
}

enum Now {
    Source(Box<Reference>),
    Left(Box<Statements>),
}

/// The reference, or the statements once the list has left it, and the state that the last call left.
pub struct Judge {
    sizes: Sizes,
    now: Now,
    state: State,
    last_by: Option<By>,
}

impl Judge {
    pub fn new(sizes: Sizes) -> Self {
        Self {
            sizes,
            now: Now::Source(Box::new(Reference::new(sizes))),
            state: State::fresh(&sizes),
            last_by: None,
        }
    }

    pub fn held(&self) -> &State {
        &self.state
    }

    /// Whether the list has left the comparison with the source.
    pub fn has_left(&self) -> bool {
        matches!(self.now, Now::Left(_))
    }

    fn judged(&mut self, call: &Call) -> Result<(By, Taken), String> {
        let reference = match &mut self.now {
            Now::Left(statements) => return Ok((By::Left, statements.take(call)?)),
            Now::Source(reference) => reference,
        };
        if let Some(passed) = caught("reference", || reference.passes_the_limit(call))? {
            return Ok((By::Leaving, self.leave(call, &passed)?));
        }
        if call.kind().is_in_source() {
            let taken = taken("reference", &mut **reference, call)?;
            let by = if read_with_1(call, &taken.0) > 0 {
                By::ReadWith1
            } else {
                By::Source
            };
            return Ok((by, taken));
        }
        // Made anew for each such call; the source is not asked.
        Ok((By::Statements, Statements::holding(self.sizes, &self.state).take(call)?))
    }

    /// The statements go on from what the source holds, which is asked no more.
    fn leave(&mut self, call: &Call, passed: &Passed) -> Result<Taken, String> {
        let mut statements = Statements::holding(self.sizes, &self.state);
        let taken = statements.take(call)?;
        is_a_deletion_more(&taken, passed)?;
        if let Now::Source(reference) = std::mem::replace(&mut self.now, Now::Left(Box::new(statements))) {
            is_as_shown(*reference)?;
        }
        Ok(taken)
    }

    /// The judge takes the call; what was seen of it goes to `seen`.
    pub fn take<T>(&mut self, call: &Call, seen: impl FnOnce(&Seen) -> T) -> Result<T, String> {
        let (by, (answer, after)) = self.judged(call)?;
        if must_change_nothing(call, &answer) && after != self.state {
            return Err(format!("{answer:?} changed the judge's state"));
        }
        let result = seen(&Seen {
            sizes: self.sizes,
            before: &self.state,
            call,
            answer: &answer,
            after: &after,
            by,
            last_by: self.last_by,
        });
        self.state = after;
        self.last_by = Some(by);
        Ok(result)
    }

    /// A list that has left was looked into when it left.
    pub fn finish(self) -> Result<(), String> {
        match self.now {
            Now::Source(reference) => is_as_shown(*reference),
            Now::Left(_) => Ok(()),
        }
    }
}

/// What the product must answer.
impl Post for Judge {
    fn perform(&mut self, call: &Call) -> Answer {
        self.take(call, |seen| seen.answer.clone())
            .unwrap_or_else(|what| panic!("{call:?}: {what}"))
    }

    fn state(&mut self) -> Cow<'_, State> {
        Cow::Borrowed(&self.state)
    }
}

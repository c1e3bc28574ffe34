//! What request Two changes: the same calls put to the source as it lies, to the source with the line, and to another post.

use crate::compare::judge::{By, Judge, Seen};
use crate::compare::maker;
use crate::compare::pair::{caught, quiet};
use crate::generate::{Generator, Profile};
use crate::lost::Ending;
use post::{Answer, Call, Post, Reply, Sizes, State};
use std::process::ExitCode;

#[derive(Default)]
struct Counts {
    calls: usize,
    /// Calls that the source has not: it was not asked.
    not_in_source: usize,
    /// Answers in which a fetch is lost.
    changed: usize,
    lost: usize,
    /// Of these answers, those that count rows (request Three).
    counted: usize,
    /// Lists that ended because they left the comparison with the source (request Four).
    left: usize,
    /// Row reads and loads in which the sources read carried rows of 0 copies with 1 copy, 0 put back (request Five).
    read_with_1: usize,
}

/// The answer of the source as it lies less the lost fetches, each in its place, and how many they are. Its count stays.
fn without_lost(old: &Answer, met: Option<Ending>) -> Result<(Answer, usize), String> {
    let (
        Answer::Done {
            malformed: false,
            replies,
            actions,
            searched,
        },
        Some(ending),
    ) = (old, met)
    else {
        return Ok((old.clone(), 0));
    };
    let fetches = ending.fetches_before();
    let is_fetch = |reply: &&Reply| matches!(reply, Reply::Fetch(_));
    let sent: Vec<&Reply> = replies.iter().take_while(is_fetch).collect();
    let wanted: Vec<Reply> = fetches.iter().map(|(tag, _)| Reply::Fetch(*tag)).collect();
    if sent != wanted.iter().collect::<Vec<_>>() {
        return Err(format!("the source as it lies fetches {sent:?}, and should {wanted:?}"));
    }
    let is_lost = |place: usize| fetches.get(place).is_some_and(|(_, lost)| *lost);
    let stays = (0..replies.len()).filter(|place| !is_lost(*place));
    let answer = Answer::Done {
        malformed: false,
        replies: stays.map(|place| replies[place].clone()).collect(),
        actions: actions.clone(),
        searched: *searched,
    };
    let lost = fetches.iter().filter(|(_, lost)| *lost).count();
    Ok((answer, lost))
}

/// What must come out of a call.
struct Wanted {
    answer: Answer,
    state: State,
}

impl Wanted {
    fn hold_against(&self, who: &str, answer: &Answer, state: &State) -> Result<(), String> {
        if !self.answer.agrees(answer) {
            return Err(format!("{who} answers {answer:?}, and should {:?}", self.answer));
        }
        if self.state != *state {
            return Err(format!("{who} leaves {state:?}, and should {:?}", self.state));
        }
        Ok(())
    }
}

/// The three posts.
struct Three {
    old: before::Reference,
    judge: Judge,
    other: Box<dyn Post>,
}

/// The source as it lies takes the call, if it has it: its answer less the lost fetches is wanted, and its state.
fn wanted(old: &mut before::Reference, seen: &Seen, counts: &mut Counts) -> Result<Wanted, String> {
    counts.calls += 1;
    let in_source = seen.call.kind().is_in_source();
    let answer = if in_source {
        let answer = caught("the source as it lies", || old.perform(seen.call))?;
        let (answer, lost) = without_lost(&answer, Ending::of(seen.before, seen.call))?;
        counts.changed += usize::from(lost > 0);
        counts.lost += lost;
        counts.counted += usize::from(lost > 0 && matches!(answer, Answer::Done { searched: 1.., .. }));
        answer
    } else {
        counts.not_in_source += 1;
        seen.answer.clone()
    };
    let state = old.state().into_owned();
    Ok(Wanted { answer, state })
}

impl Three {
    /// Whether the list goes on: where it leaves the comparison with the source it ends, and neither of the two others is asked.
    fn step(&mut self, call: &Call, counts: &mut Counts) -> Result<bool, String> {
        let (old, other) = (&mut self.old, &mut self.other);
        self.judge.take(call, |seen| {
            if seen.by == By::Leaving {
                counts.left += 1;
                return Ok(false);
            }
            counts.read_with_1 += usize::from(seen.by == By::ReadWith1);
            let wanted = wanted(old, seen, counts)?;
            wanted.hold_against("the source with the line", seen.answer, seen.after)?;
            let answer = caught("the other post", || other.perform(call))?;
            wanted.hold_against("the other post", &answer, &other.state())?;
            Ok(true)
        })?
    }

    /// The exchanges of both sources are as their answers showed them.
    fn finish(self) -> Result<(), String> {
        self.judge.finish()?;
        let parts = caught("the source as it lies", || self.old.dissected())?;
        match parts.iter().find(|(inside, shown)| inside != shown) {
            None => Ok(()),
            Some((inside, shown)) => Err(format!("exchange in the source {inside:?}, shown {shown:?}")),
        }
    }
}

/// A list of one seed.
fn run_list(
    seed: u64,
    calls: usize,
    make: &dyn Fn(Sizes) -> Box<dyn Post>,
    counts: &mut Counts,
) -> Result<(), (usize, String)> {
    let mut generator = Generator::new(seed, Profile::of_seed(seed));
    let sizes = generator.sizes;
    let mut three = Three {
        old: before::Reference::new(sizes),
        judge: Judge::new(sizes),
        other: make(sizes),
    };
    for number in 1..=calls {
        let call = generator.next(three.judge.held());
        if !three.step(&call, counts).map_err(|what| (number, what))? {
            break;
        }
    }
    three.finish().map_err(|what| (calls, what))
}

/// `FROM..TO CALLS [PARTY]`: at least so many calls, shared out among the seeds, less those behind the end of a list that left; the party is `rules`
/// if none is named.
pub fn main(arguments: &[String]) -> Option<ExitCode> {
    let (seeds, calls, party) = match arguments {
        [seeds, calls] => (seeds, calls, "rules"),
        [seeds, calls, party] => (seeds, calls, party.as_str()),
        _ => return None,
    };
    let (from, to) = seeds.split_once("..")?;
    let (from, to): (u64, u64) = (from.parse().ok()?, to.parse().ok()?);
    let lists = to.checked_sub(from)? + 1;
    let each = calls.parse::<usize>().ok()?.div_ceil(lists as usize);
    let make = maker(party)?;
    quiet();
    let mut counts = Counts::default();
    for seed in from..=to {
        #[cfg(feature = "library")]
        library::watch(seed);
        if let Err((call, what)) = run_list(seed, each, &make, &mut counts) {
            println!("first difference: seed {seed}, call {call}: {what}");
            return Some(ExitCode::FAILURE);
        }
    }
    println!(
        "request Two: {} calls, {} of them not the source's; {} answers changed, {} fetches lost, {} of these answers count rows; \
         all else is the same; {} lists ended where a row turned with 1,024 tombstones or more there; in {} row reads and loads the sources \
         read rows of 0 copies with 1",
        counts.calls,
        counts.not_in_source,
        counts.changed,
        counts.lost,
        counts.counted,
        counts.left,
        counts.read_with_1
    );
    if counts.lost == 0 {
        println!("request Two: no fetch was lost, so that nothing was shown");
    } else if counts.counted == 0 {
        println!("request Two: no answer that lost a fetch counts a row, so that nothing was shown of the count");
    }
    Some(crate::status(counts.lost > 0 && counts.counted > 0))
}

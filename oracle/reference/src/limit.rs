//! Request Four, which the source has not: where a carried row turns with 1,024 tombstones or more there, it deletes none. The source is asked
//! whether one turns, and what it does itself; then it is as it was.

use crate::core::source::Raw;
use crate::core::source::view::Snapshot;
use crate::reference::done;
use crate::{Reference, Source};
use post::{Action, Answer, Call, Post, State, Tag};

const LIMIT: usize = 1024;

/// What the source does with a tomb that turns a carried row with 1,024 tombstones or more there, and with a tombstone stored in its place.
#[derive(Debug)]
pub struct Passed {
    /// The tomb's answer, and what is held after it: a tombstone more.
    pub answer: Answer,
    pub state: State,
    /// The slot of the tombstone that goes where one of another tag is stored.
    pub goes: Option<u64>,
}

impl Reference {
    /// What a call of the source does, and what is held after it; that is taken back. The source can't take the last slot, and is lent another.
    fn tried(&mut self, call: impl FnOnce(&mut Source) -> Raw) -> (Raw, State) {
        let before: Snapshot = self.source.snapshot();
        let lent = self.lend_slot();
        let raw = call(&mut self.source);
        if lent.is_some() {
            self.source.set_next_slot(u64::MAX);
        }
        let state = self.state().into_owned();
        self.source.restore(before);
        (raw, state)
    }

    /// A tag that no held row has.
    fn free_tag(&self) -> Tag {
        let held = self.source.state().held;
        let tag = |number: u64| -> Tag { post::array(&[number.to_be_bytes(), [0xf4; 8]].concat(), 0) };
        let is_free = |tag: &Tag| held.iter().all(|row| row.held.tag() != tag);
        (0..).map(tag).find(is_free).expect("fewer rows than tags")
    }

    /// The slot that a tombstone of another tag deletes.
    fn displaced_by_a_stored_one(&mut self) -> Option<u64> {
        let tag = self.free_tag();
        let (raw, _) = self.tried(|source| source.store_tombstone(tag, [0; 16], u32::MAX));
        match raw.actions[..] {
            [Action::Delete { slot }, Action::Put { .. }] => Some(slot),
            _ => None,
        }
    }

    /// If the call is a tomb that turns a carried row with 1,024 tombstones or more there.
    pub fn passes_the_limit(&mut self, call: &Call) -> Option<Passed> {
        let Call::Tomb { peer, tag, secret, .. } = call else {
            return None;
        };
        let (_, there) = self.source.held_counts();
        if there < LIMIT || self.refusal(call).is_some() {
            return None;
        }
        let (raw, state) = self.tried(|source| source.tomb(*peer, *tag, *secret));
        (state.tombstones().count() > there).then(|| Passed {
            answer: done(raw),
            state,
            goes: self.displaced_by_a_stored_one(),
        })
    }
}

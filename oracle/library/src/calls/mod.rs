//! Each call of the library: its areas lent, its numbers read.

mod envelopes;
mod reads;
mod settings;
mod tombs;

use crate::{Input, Library};
use goosetable_sys::{self as sys, Answer};
use lent::{Outcome, Said};
use post::Call;
use std::array;

// The numbers that a sample has are the library's.
const _: () = assert!(
    post::said::DONE == sys::DONE
        && post::said::MALFORMED == sys::MALFORMED
        && post::said::OURS == sys::OURS
        && post::said::MISSING == sys::MISSING
        && post::said::NO_ENVELOPE == sys::NO_ENVELOPE
);

// What this crate reads by, as it stands in document 01: these names follow the library, and are no statement of their own.
const _: () = assert!(
    sys::KIND_CARRIED == 1
        && sys::KIND_TOMBSTONE == 2
        && sys::CARRIED_HEAD == 46
        && sys::PREFIX == 8
        && sys::KEY_ROW == 6
);

/// What an answer says, where `done` is what the call means by its yes.
fn said(answer: &Answer, done: Said) -> Said {
    match answer.said {
        sys::DONE => done,
        sys::MALFORMED => Said::Malformed,
        sys::OURS => Said::Ours {
            contact: answer.contact,
            generation: answer.generation,
            index: answer.idx,
        },
        sys::MISSING => Said::Missing,
        sys::NO_ENVELOPE => Said::NoEnvelope,
        number => Said::Refused(number),
    }
}

/// Only this number; every other is 0.
pub(crate) fn says_only(said: u8) -> Answer {
    Answer {
        said,
        ..Answer::default()
    }
}

/// The numbers in which an outcome is answered.
fn numbers(outcome: &Outcome) -> Answer {
    let said = match &outcome.said {
        Said::Refused(number) => *number,
        Said::Malformed => sys::MALFORMED,
        Said::Ours { .. } => sys::OURS,
        Said::Missing => sys::MISSING,
        Said::NoEnvelope => sys::NO_ENVELOPE,
        Said::Done | Said::Ended { .. } | Said::Found { .. } | Said::Own(_) | Said::Wrote(_) | Said::Row(_) => {
            sys::DONE
        }
    };
    let answer = Answer {
        replies: outcome.replies.len(),
        actions: outcome.actions.len(),
        ..says_only(said)
    };
    match outcome.said {
        Said::Ours {
            contact,
            generation,
            index: idx,
        } => Answer {
            contact,
            generation,
            idx,
            ..answer
        },
        Said::Found { length } | Said::Wrote(length) | Said::Ended { searched: length } => Answer { length, ..answer },
        _ => answer,
    }
}

/// Rows at the front of an area.
fn rows<const N: usize>(area: &[u8], count: usize) -> Vec<[u8; N]> {
    area.as_chunks().0.iter().take(count).copied().collect()
}

/// Bytes that a call reads, each in an area of its own.
fn lend<B: AsRef<[u8]>, const N: usize>(inputs: &mut [Input; 4], bytes: [B; N]) -> [&[u8]; N] {
    for (input, bytes) in inputs.iter_mut().zip(bytes) {
        input.set(bytes.as_ref());
    }
    array::from_fn(|place| inputs[place].area.bytes())
}

/// As a call takes bytes of fixed length.
fn fixed<const N: usize>(bytes: &[u8]) -> &[u8; N] {
    bytes.try_into().expect("the fixed length")
}

impl Library {
    /// A number that says nothing must be 0.
    fn with_numbers(&mut self, outcome: Outcome, answer: Answer) -> Outcome {
        if numbers(&outcome) != answer {
            self.differences.push(format!("{answer:?} for {outcome:?}"));
        }
        outcome
    }

    /// The rows at the front of the reply and action areas, as many as the library says.
    fn answered(&mut self, answer: Answer, done: Said) -> Outcome {
        let outcome = Outcome {
            said: said(&answer, done),
            replies: rows(self.lent.replies.bytes(), answer.replies),
            actions: rows(self.lent.actions.bytes(), answer.actions),
            bytes: Vec::new(),
        };
        self.with_numbers(outcome, answer)
    }

    /// As many rows of a width at the front of the answer area.
    fn wrote(&mut self, answer: Answer, width: usize) -> Outcome {
        let bytes = self.answer.bytes();
        let length = answer.length.saturating_mul(width).min(bytes.len());
        let outcome = match said(&answer, Said::Wrote(answer.length)) {
            Said::Wrote(count) => Outcome::wrote(count, bytes[..length].to_vec()),
            other => Outcome::only(other),
        };
        self.with_numbers(outcome, answer)
    }

    /// The call by the library.
    pub(crate) fn called(&mut self, call: &Call) -> Outcome {
        match call {
            Call::Clock { seconds } => self.clock(*seconds),
            Call::Setting {
                enabled,
                copies,
                lifetime,
            } => self.setting(*enabled, *copies, *lifetime),
            Call::Contact { id, verification } => self.contact(*id, *verification),
            Call::FreshExchange { exchange, peer, .. } => self.fresh_exchange(*exchange, *peer),
            Call::Envelope {
                window, peer, envelope, ..
            } => self.envelope(*peer, envelope, window),
            Call::Fetch { peer, tag, .. } => self.fetch(*peer, tag),
            Call::Inventory {
                window,
                exchange,
                peer,
                prefixes,
                ..
            } => self.inventory(*exchange, *peer, window, prefixes),
            Call::CustodyCode {
                exchange,
                peer,
                tag,
                code,
                ..
            } => self.custody_code(*exchange, *peer, tag, *code),
            Call::Tomb { peer, tag, secret, .. } => self.tomb(*peer, tag, secret),
            Call::Opened {
                peer,
                tag,
                secret,
                expiry,
                ..
            } => self.opened(*peer, tag, secret, *expiry),
            Call::Failed { peer, tag } => self.failed(*peer, tag),
            Call::OwnEnvelope(new) => self.own_envelope(new),
            Call::Maintenance { .. } => self.maintenance(),
            Call::RowBlob { slot, .. } => self.row_blob(*slot),
            Call::Save { .. } => self.save(),
            Call::Load { file } => self.load(file),
            Call::InventoryOfOurs { peer, .. } => self.inventory_of_ours(*peer),
            Call::StoredTombstone {
                tag, secret, expiry, ..
            } => self.stored_tombstone(tag, secret, *expiry),
            Call::Window { skipped, chains, .. } => self.window(skipped, chains),
            Call::RowRead { blob } => self.row_read(blob),
            Call::Page { number, .. } => self.page(*number),
        }
    }
}

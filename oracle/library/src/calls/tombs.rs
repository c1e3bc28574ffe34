//! Tombs, stored tombstones, reports and maintenance.

use crate::Library;
use crate::calls::{fixed, lend};
use lent::{Outcome, Said};

impl Library {
    pub(super) fn stored_tombstone(&mut self, tag: &[u8; 16], secret: &[u8; 16], expiry: u32) -> Outcome {
        let [tag, secret] = lend(&mut self.inputs, [tag, secret]).map(fixed);
        let answer = self.lent.areas().stored_tombstone(tag, secret, expiry);
        self.answered(answer, Said::Done)
    }

    pub(super) fn tomb(&mut self, peer: u64, tag: &[u8; 16], secret: &[u8; 16]) -> Outcome {
        let [tag, secret] = lend(&mut self.inputs, [tag, secret]).map(fixed);
        let answer = self.lent.areas().tomb(peer, tag, secret);
        self.answered(answer, Said::Done)
    }

    pub(super) fn opened(&mut self, peer: u64, tag: &[u8; 16], secret: &[u8; 16], expiry: u32) -> Outcome {
        let [tag, secret] = lend(&mut self.inputs, [tag, secret]).map(fixed);
        let answer = self.lent.areas().opened(peer, tag, secret, expiry);
        self.answered(answer, Said::Done)
    }

    pub(super) fn failed(&mut self, peer: u64, tag: &[u8; 16]) -> Outcome {
        let [tag] = lend(&mut self.inputs, [tag]).map(fixed);
        let answer = self.lent.areas().failed(peer, tag);
        self.answered(answer, Said::Done)
    }

    pub(super) fn maintenance(&mut self) -> Outcome {
        let answer = self.lent.areas().maintenance();
        self.answered(answer, Said::Done)
    }
}

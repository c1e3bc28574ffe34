//! What the host sets.

use crate::Library;
use goosetable_sys as sys;
use lent::{Outcome, Said};
use post::Verification;

impl Library {
    pub(super) fn clock(&mut self, seconds: u64) -> Outcome {
        let answer = self.lent.areas().clock(seconds);
        self.answered(answer, Said::Done)
    }

    /// With any byte as enabled.
    pub(crate) fn setting_of(&mut self, enabled: u8, copies: u8, lifetime: u16) -> sys::Answer {
        self.lent.areas().setting(enabled, copies, lifetime)
    }

    pub(super) fn setting(&mut self, enabled: bool, copies: u8, lifetime: u16) -> Outcome {
        let answer = self.setting_of(enabled.into(), copies, lifetime);
        self.answered(answer, Said::Done)
    }

    /// With any byte as its verification.
    pub(crate) fn contact_of(&mut self, id: u64, verification: u8) -> sys::Answer {
        self.lent.areas().contact(id, verification)
    }

    pub(super) fn contact(&mut self, id: u64, verification: Verification) -> Outcome {
        let answer = self.contact_of(id, verification as u8);
        self.answered(answer, Said::Done)
    }

    pub(super) fn fresh_exchange(&mut self, exchange: usize, peer: u64) -> Outcome {
        let session = &mut self.sessions[exchange].areas();
        let answer = self.lent.areas().tables().fresh_exchange(session, peer);
        self.answered(answer, Said::Done)
    }
}

//! An envelope that arrives: ours, or a code.

use crate::{Rules, Wrong, done};
use post::{Action, Answer, Custody, Envelope, Held, HeldRow, Reply, Tag, Verification, WindowRow};

const SIZES: [usize; 7] = [32, 64, 128, 256, 512, 1024, 2048];

pub(crate) fn rows_of(window: &[u8]) -> Vec<WindowRow> {
    window.chunks_exact(WindowRow::WIDTH).map(WindowRow::read).collect()
}

impl Rules {
    /// Ciphertext length less 16 is one of seven; copies above 0; expiry after now.
    fn valid(&self, envelope: &Envelope) -> bool {
        let length = envelope.ciphertext.len();
        let sized = match self.wrong {
            Some(Wrong::CarriesTheOwnSize) => length == 4064 || SIZES.contains(&length.wrapping_sub(16)),
            Some(Wrong::AnyLengthUpTo2064) => (16..=2064).contains(&length),
            Some(Wrong::SizeWithoutThe16) => SIZES.contains(&length),
            _ => SIZES.contains(&length.wrapping_sub(16)),
        };
        let copies = envelope.copies > 0 || self.is(Wrong::NoCopiesIsValid);
        let now = self.minute();
        let later = envelope.expiry > now || (self.is(Wrong::ExpiryOfThisMinuteIsValid) && envelope.expiry == now);
        sized && copies && later
    }

    /// Own rows, and every held row.
    fn duplicate(&self, tag: &Tag) -> bool {
        let own = self.state.own.iter().any(|row| row.tag == *tag);
        let held =
            self.state.held.iter().any(|row| {
                row.held.tag() == tag && (row.held.is_carried() || !self.is(Wrong::DuplicateIgnoresTombstones))
            });
        (own && !self.is(Wrong::DuplicateIgnoresOwnRows)) || held
    }

    fn quota(&self, peer: u64) -> usize {
        let contact = self.state.contacts.iter().find(|contact| contact.id == peer);
        let verification = contact.map_or(Verification::Unverified, |contact| contact.verification);
        let verified = match verification {
            Verification::Verified => true,
            Verification::Compromised => self.is(Wrong::CompromisedHasTheGreatQuota),
            Verification::Unverified => false,
        };
        if verified {
            self.unless(
                Wrong::VerifiedQuotaIs33,
                self.unless(Wrong::VerifiedQuotaIs31, 32, 31),
                33,
            )
        } else {
            self.unless(Wrong::QuotaIs17, self.unless(Wrong::QuotaIs15, 16, 15), 17)
        }
    }

    /// 256 rows in all, or the depositor's quota. The bytes never decide.
    fn full(&self, peer: u64) -> bool {
        let counts = |expiry: u32| !self.is(Wrong::QuotaCountsUnexpiredOnly) || expiry > self.minute();
        let rows: Vec<u64> = self
            .state
            .carried()
            .filter(|(_, _, envelope)| counts(envelope.expiry))
            .map(|(_, depositor, _)| depositor)
            .collect();
        let others = self.is(Wrong::QuotaCountsAllRows);
        let deposited = rows.iter().filter(|by| others || **by == peer).count();
        rows.len() >= self.unless(Wrong::CarriesUpTo257, 256, 257) || deposited >= self.quota(peer)
    }

    /// The tests in their order; the first that applies is the code.
    pub(crate) fn code(&self, peer: u64, envelope: &Envelope) -> Custody {
        let mut tests = [
            (Custody::Off, !self.state.setting.enabled),
            (Custody::Invalid, !self.valid(envelope)),
            (Custody::Duplicate, self.duplicate(&envelope.tag)),
            (Custody::Full, self.full(peer)),
        ];
        match self.wrong {
            Some(Wrong::InvalidBeforeOff) => tests.swap(0, 1),
            Some(Wrong::DuplicateBeforeInvalid) => tests.swap(1, 2),
            Some(Wrong::FullBeforeDuplicate) => tests.swap(2, 3),
            _ => {}
        }
        let found = tests.iter().find(|(_, applies)| *applies);
        found.map_or(Custody::Accepted, |(code, _)| *code)
    }

    /// The first window row, in key order, with this whole tag.
    pub(crate) fn addressed(&self, window: &[u8], tag: &Tag) -> Option<WindowRow> {
        let bytes = self.unless(Wrong::OursByPrefix, 16, 8);
        let rows = rows_of(window);
        let meets = |row: &&WindowRow| row.tag[..bytes] == tag[..bytes];
        if self.is(Wrong::LastWindowRow) {
            return rows.iter().rev().find(meets).copied();
        }
        rows.iter().find(meets).copied()
    }

    /// Whether a carried row would be added.
    pub(crate) fn would_carry(&self, window: &[u8], peer: u64, envelope: &Envelope) -> bool {
        self.addressed(window, &envelope.tag).is_none() && self.code(peer, envelope) == Custody::Accepted
    }

    pub(crate) fn envelope(&mut self, window: &[u8], peer: u64, envelope: &Envelope) -> Answer {
        let code = self.code(peer, envelope);
        let addressed = self.addressed(window, &envelope.tag).filter(|row| {
            let hidden = self.is(Wrong::BadTagIsNotOurs) && self.state.bad.contains(&(peer, row.tag));
            let refused = self.is(Wrong::OursOnlyIfValid) && matches!(code, Custody::Off | Custody::Invalid);
            let gone = self.is(Wrong::TombstonedIsNotOurs) && self.is_tombstoned(&row.tag);
            !hidden && !refused && !gone
        });
        if let Some(row) = addressed {
            return Answer::Ours {
                contact: row.contact,
                generation: row.generation,
                index: row.index,
            };
        }
        let mut actions = Vec::new();
        if code == Custody::Accepted && !self.is(Wrong::AcceptsAndHoldsNothing) {
            actions.push(self.carry(peer, envelope.clone()));
        }
        done(vec![Reply::Custody(envelope.tag, code)], actions)
    }

    /// Copies and expiry become the lesser of their own and the configured.
    fn carry(&mut self, depositor: u64, mut envelope: Envelope) -> Action {
        if !self.is(Wrong::CopiesStayAsSent) {
            envelope.copies = envelope.copies.min(self.state.setting.copies);
        }
        if !self.is(Wrong::ExpiryStaysAsSent) {
            envelope.expiry = envelope.expiry.min(self.lifetime_end());
        }
        self.put_new(Held::Carried { depositor, envelope })
    }

    /// A held row in a new slot.
    pub(crate) fn put_new(&mut self, held: Held) -> Action {
        let slot = self.state.next_slot;
        self.state.next_slot = slot.saturating_add(1);
        self.state.held.push(HeldRow { slot, held });
        Action::Put { slot }
    }
}

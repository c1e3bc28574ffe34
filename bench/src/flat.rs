//! `receive_envelope`, `custody` and `carry` of couriering.rs as a plain Rust program with its rows in one `Vec`, which looks at no more
//! than decides. No row is in its window.

use post::{Custody, Envelope, Tag};

const BUCKETS: [usize; 7] = [32, 64, 128, 256, 512, 1_024, 2_048];

fn valid(envelope: &Envelope, now_min: u32) -> bool {
    let sized = envelope.ciphertext.len().checked_sub(16).is_some_and(|inner| BUCKETS.contains(&inner));
    sized && envelope.copies > 0 && envelope.expiry > now_min
}

struct Row {
    depositor: u64,
    envelope: Envelope,
}

pub struct Flat {
    pub enabled: bool,
    pub copies: u8,
    pub lifetime_min: u16,
    pub now_s: u64,
    /// Number, and whether it is verified.
    pub contacts: Vec<(u64, bool)>,
    pub own: Vec<Tag>,
    pub tombstones: Vec<Tag>,
    rows: Vec<Row>,
}

impl Flat {
    pub fn new(contacts: Vec<(u64, bool)>, now_s: u64) -> Self {
        Self {
            enabled: true,
            copies: 6,
            lifetime_min: 10_080,
            now_s,
            contacts,
            own: Vec::new(),
            tombstones: Vec::new(),
            rows: Vec::new(),
        }
    }

    fn now_min(&self) -> u32 {
        u32::try_from(self.now_s / 60).unwrap_or(u32::MAX)
    }

    fn custody(&self, peer: u64, envelope: &Envelope) -> Custody {
        if !self.enabled {
            return Custody::Off;
        }
        if !valid(envelope, self.now_min()) {
            return Custody::Invalid;
        }
        let held = self.rows.iter().any(|row| row.envelope.tag == envelope.tag);
        if held || self.own.contains(&envelope.tag) || self.tombstones.contains(&envelope.tag) {
            return Custody::Duplicate;
        }
        let deposited = || self.rows.iter().filter(|row| row.depositor == peer).count();
        let verified = self.contacts.iter().any(|(id, verified)| *id == peer && *verified);
        if self.rows.len() >= 256 || deposited() >= if verified { 32 } else { 16 } {
            return Custody::Full;
        }
        Custody::Accepted
    }

    #[inline(never)]
    pub fn receive_envelope(&mut self, peer: u64, envelope: &Envelope, replies: &mut Vec<(Tag, Custody)>) {
        let code = self.custody(peer, envelope);
        if code == Custody::Accepted {
            let mut envelope = envelope.clone();
            envelope.copies = envelope.copies.min(self.copies);
            envelope.expiry = envelope.expiry.min(self.now_min().saturating_add(u32::from(self.lifetime_min)));
            self.rows.push(Row { depositor: peer, envelope });
        }
        replies.push((envelope.tag, code));
    }
}

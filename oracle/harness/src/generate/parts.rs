//! The parts of random calls: contacts, tags, secrets, times, ciphertexts, exchanges.

use super::Generator;
use super::pool::{WRONG_SECRET, secret_of};
use post::{Bytes, Envelope, Exchange, State, Tag};

const LENGTHS: [usize; 7] = [48, 80, 144, 272, 528, 1040, 2064];
const OTHER_LENGTHS: [usize; 15] = [0, 15, 16, 17, 32, 47, 49, 64, 2048, 2063, 2065, 4063, 4064, 4065, 8147];

impl Generator {
    pub(super) fn contact(&mut self) -> u64 {
        self.rng.pick(&self.pool.contacts)
    }

    /// A known contact, where there is one.
    pub(super) fn known(&mut self, state: &State) -> u64 {
        let ids: Vec<u64> = state.contacts.iter().map(|contact| contact.id).collect();
        self.rng.pick_or(&ids, 5)
    }

    pub(super) fn peer(&mut self, state: &State) -> u64 {
        if self.rng.percent(4) {
            self.contact()
        } else {
            self.known(state)
        }
    }

    pub(super) fn minute(&self, state: &State) -> u32 {
        (state.clock / 60).min(u64::from(u32::MAX)) as u32
    }

    /// A tag of the pool, of a row, of a window or of an offer.
    pub(super) fn tag(&mut self, state: &State) -> Tag {
        let from_pool = self.rng.pick(&self.pool.tags);
        match self.rng.below(10) {
            0..3 if !state.held.is_empty() => *state.held[self.rng.below(state.held.len())].held.tag(),
            3..5 if !state.own.is_empty() => state.own[self.rng.below(state.own.len())].tag,
            5 if !self.last_window.is_empty() => self.last_window[self.rng.below(self.last_window.len())].tag,
            6 if !state.bad.is_empty() => {
                let bad: Vec<Tag> = state.bad.iter().map(|(_, tag)| *tag).collect();
                self.rng.pick(&bad)
            }
            7 => self.listed_tag(state).unwrap_or(from_pool),
            _ => from_pool,
        }
    }

    /// A tag of the pool whose prefix an exchange has listed.
    pub(super) fn listed_tag(&mut self, state: &State) -> Option<Tag> {
        let (_, exchange) = self.exchange(state);
        let prefix = self.rng.pick(
            exchange
                .listed
                .get(..exchange.listed.len().min(8))
                .filter(|few| !few.is_empty())?,
        );
        let tags: Vec<Tag> = self
            .pool
            .tags
            .iter()
            .filter(|tag| tag.starts_with(&prefix))
            .copied()
            .collect();
        (!tags.is_empty()).then(|| self.rng.pick(&tags))
    }

    /// A tag that no call has had.
    pub(super) fn new_tag(&mut self) -> Tag {
        self.numbered += 1;
        let mut tag = [0xa0; 16];
        tag[8..].copy_from_slice(&self.numbered.to_be_bytes());
        tag
    }

    pub(super) fn secret(&mut self, state: &State, tag: &Tag) -> [u8; 16] {
        let own: Vec<[u8; 16]> = state
            .own
            .iter()
            .filter(|row| row.tag == *tag)
            .map(|row| row.secret)
            .collect();
        let carried = state.carried().any(|(_, _, envelope)| envelope.tag == *tag);
        match self.rng.below(10) {
            0 => WRONG_SECRET,
            1..4 => self.rng.pick_or(&own, secret_of(tag)),
            4..7 if carried => self.rng.pick_or(&own, secret_of(tag)),
            _ => secret_of(tag),
        }
    }

    pub(super) fn expiry(&mut self, state: &State) -> u32 {
        let now = self.minute(state);
        let end = now.saturating_add(u32::from(state.setting.lifetime));
        let near = self.rng.below(4) as u32;
        self.rng.pick(&[
            now,
            now.saturating_add(1),
            now.saturating_sub(1),
            now.saturating_add(near + 1),
            now.saturating_add(40),
            now.saturating_add(40),
            end,
            end.saturating_sub(1),
            end.saturating_add(1),
            0,
            1,
            u32::MAX,
        ])
    }

    pub(super) fn ciphertext(&mut self, usual: usize) -> Bytes {
        let length = match self.rng.below(20) {
            0 => self.rng.pick(&OTHER_LENGTHS),
            1..4 => self.rng.pick(&LENGTHS),
            _ => usual,
        };
        vec![self.rng.next() as u8; length].into()
    }

    /// A valid envelope of a tag that no call has had.
    pub(super) fn plain_envelope(&mut self, state: &State) -> Envelope {
        let tag = self.new_tag();
        Envelope {
            tag,
            commitment: rules::commitment(&secret_of(&tag)),
            expiry: self.minute(state).saturating_add(50),
            copies: 4,
            ciphertext: vec![self.rng.next() as u8; 48].into(),
        }
    }

    pub(super) fn envelope(&mut self, state: &State) -> Envelope {
        let plain = self.rng.percent(50);
        let tag = if plain && self.rng.percent(60) {
            self.new_tag()
        } else {
            self.tag(state)
        };
        let now = self.minute(state);
        let good = rules::commitment(&secret_of(&tag));
        Envelope {
            tag,
            commitment: if self.rng.percent(90) { good } else { [0x31; 16] },
            expiry: if plain {
                now.saturating_add(50)
            } else {
                self.expiry(state)
            },
            copies: if plain {
                self.rng.pick(&[2, 4, 5, 9])
            } else {
                self.rng.pick(&[0, 1, 1, 2, 3, 6, 16, 17, 255])
            },
            ciphertext: if plain {
                vec![self.rng.next() as u8; 48].into()
            } else {
                self.ciphertext(48)
            },
        }
    }

    pub(super) fn exchange(&mut self, state: &State) -> (usize, Exchange) {
        let index = self.rng.below(state.exchanges.len());
        (index, state.exchanges[index].clone())
    }

    /// Mostly an exchange of which `wanted` holds, where there is one.
    pub(super) fn exchange_with(&mut self, state: &State, wanted: impl Fn(&Exchange) -> bool) -> (usize, Exchange) {
        let fit: Vec<usize> = (0..state.exchanges.len())
            .filter(|index| wanted(&state.exchanges[*index]))
            .collect();
        let (any, _) = self.exchange(state);
        let index = if self.rng.percent(75) {
            self.rng.pick_or(&fit, any)
        } else {
            any
        };
        (index, state.exchanges[index].clone())
    }

    /// The contact of an exchange, mostly.
    pub(super) fn exchange_peer(&mut self, state: &State, exchange: &Exchange) -> u64 {
        match exchange.peer {
            Some(peer) if self.rng.percent(93) => peer,
            _ => self.peer(state),
        }
    }
}

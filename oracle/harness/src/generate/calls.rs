//! One random call of each kind.

use super::pool::{WRONG_SECRET, secret_of};
use super::{Generator, VERIFICATIONS};
use crate::TOMBSTONE_LIMIT;
use post::{Areas, Bytes, Call, Custody, Kind, NewOwn, Prefix, State, Tag};

const PAGE_ROWS: usize = 19;
const PAGE_BYTES: usize = 1_620;

fn is_own(state: &State, tag: &Tag) -> bool {
    state.own.iter().any(|row| row.tag == *tag)
}

impl Generator {
    fn clock(&mut self, state: &State) -> Call {
        let far = state.clock > 1 << 45;
        let expiry = match self.rng.below(3) {
            0 if !state.own.is_empty() => state.own[self.rng.below(state.own.len())].expiry,
            1 if !state.held.is_empty() => state.held[self.rng.below(state.held.len())].held.expiry(),
            _ => self.minute(state).saturating_add(1),
        };
        let at = u64::from(expiry) * 60;
        let seconds = match self.rng.below(12) {
            _ if far && self.rng.percent(50) => 600,
            0..3 => at.saturating_sub(1),
            3..5 => at,
            5 => at + 59,
            6..8 => state.clock.saturating_add(self.rng.below(200) as u64),
            8 => state.clock.saturating_sub(self.rng.below(4000) as u64),
            9 => self.rng.pick(&[0, 59, 60, 61, 600]),
            10 => self.rng.pick(&[
                (1 << 32) * 60 - 1,
                (1 << 32) * 60,
                (1 << 32) * 60 - 3700,
                (1 << 32) * 60 + 700 * 60,
            ]),
            _ => self.rng.pick(&[u64::MAX, u64::MAX - 59, 1 << 40]),
        };
        Call::Clock { seconds }
    }

    fn setting(&mut self) -> Call {
        let wrong = self.rng.percent(30);
        let copies = if wrong {
            self.rng.pick(&[0, 1, 16, 17, 255])
        } else {
            self.rng.pick(&[1, 2, 6, 6, 16])
        };
        let lifetime = if wrong {
            self.rng.pick(&[0, 59, 60, 10_080, 10_081, 65_535])
        } else {
            self.rng.pick(&[60, 60, 1440, 10_080])
        };
        Call::Setting {
            enabled: self.rng.percent(80),
            copies,
            lifetime,
        }
    }

    fn contact_call(&mut self, state: &State) -> Call {
        let new = 1000 + self.rng.below(300) as u64;
        let many = self.profile == super::Profile::Contacts;
        let id = if many && self.rng.percent(70) {
            new
        } else {
            self.contact()
        };
        let id = if self.rng.percent(40) { self.known(state) } else { id };
        Call::Contact {
            id,
            verification: self.rng.pick(&VERIFICATIONS),
        }
    }

    fn prefixes(&mut self, state: &State, listed: usize) -> Bytes {
        let left = 512usize.saturating_sub(listed);
        let count = match self.rng.below(20) {
            0..8 => 0,
            8..16 => self.rng.between(1, 5),
            16 => left,
            17 => left + 1,
            18 => self.rng.pick(&[500, 511, 512, 513]),
            _ => self.rng.below(left + 2),
        };
        let mut area = Vec::new();
        for place in 0..count {
            let tag = if place < 8 { self.tag(state) } else { [0x44; 16] };
            let prefix: Prefix = post::array(&tag, 0);
            area.extend_from_slice(&prefix);
        }
        let mut area = Bytes::from(area);
        self.cut_or_grow(&mut area);
        area
    }

    fn inventory(&mut self, state: &State) -> Call {
        let (index, exchange) = self.exchange_with(state, |open| open.peer.is_some() && !open.complete);
        Call::Inventory {
            areas: self.areas(4_096),
            window: self.window_area(state),
            exchange: index,
            peer: self.exchange_peer(state, &exchange),
            prefixes: self.prefixes(state, exchange.listed.len()),
        }
    }

    fn custody_code(&mut self, state: &State) -> Call {
        let (index, exchange) = self.exchange_with(state, |open| !open.offered.is_empty());
        let mut offered: Vec<Tag> = exchange.offered.keys().copied().collect();
        let other = self.tag(state);
        if self.rng.percent(30) && offered.iter().any(|tag| is_own(state, tag)) {
            offered.retain(|tag| is_own(state, tag));
        }
        let tag = if self.rng.percent(85) {
            self.rng.pick_or(&offered, other)
        } else {
            other
        };
        let accepts = self.rng.percent(60);
        Call::CustodyCode {
            areas: self.areas(4_096),
            exchange: index,
            peer: self.exchange_peer(state, &exchange),
            tag,
            code: if accepts {
                Custody::Accepted
            } else {
                self.rng.pick(&Custody::ALL)
            },
        }
    }

    fn own_envelope(&mut self, state: &State) -> Call {
        let route = self.rng.pick(&self.pool.routes);
        let tag = route.tag();
        let mut ciphertext = self.ciphertext(48);
        if self.rng.percent(4) {
            ciphertext.resize(4064, 1);
        }
        Call::OwnEnvelope(NewOwn {
            contact: self.peer(state),
            message: self.rng.pick(&[0, 1, 2, 3, 4, 5, 6, u32::MAX]),
            route_key: route.key,
            dir: route.dir,
            generation: route.generation,
            index: route.index,
            secret: if self.rng.percent(70) {
                secret_of(&tag)
            } else {
                [0x41; 16]
            },
            ciphertext,
        })
    }

    /// An own row with a message number that no other has.
    pub(super) fn numbered_own(&mut self, state: &State) -> Call {
        self.numbered += 1;
        Call::OwnEnvelope(NewOwn {
            contact: self.known(state),
            message: 100 + self.numbered as u32,
            route_key: [7; 32],
            dir: post::Dir::R,
            generation: 9,
            index: self.numbered as u32,
            secret: [self.numbered as u8; 16],
            ciphertext: vec![3; 48].into(),
        })
    }

    fn own_call(&mut self, state: &State) -> Call {
        let many = self.profile == super::Profile::Own && self.rng.percent(50);
        if many {
            self.numbered_own(state)
        } else {
            self.own_envelope(state)
        }
    }

    fn stored_tombstone(&mut self, state: &State) -> Call {
        let tag = if self.rng.percent(50) {
            self.new_tag()
        } else {
            self.tag(state)
        };
        let tag = self.tag_to_turn(state, 20).unwrap_or(tag);
        Call::StoredTombstone {
            areas: self.areas(4_096),
            tag,
            secret: secret_of(&tag),
            expiry: self.expiry(state),
        }
    }

    fn tomb(&mut self, state: &State) -> Call {
        let carried: Vec<Tag> = state.carried().map(|(_, _, envelope)| envelope.tag).collect();
        let both: Vec<Tag> = carried.iter().filter(|tag| is_own(state, tag)).copied().collect();
        let empty = state.carried().filter(|(_, _, envelope)| envelope.copies == 0);
        let empty: Vec<Tag> = empty.map(|(_, _, envelope)| envelope.tag).collect();
        let other = self.tag(state);
        let tag = match self.rng.below(10) {
            0..3 => self.rng.pick_or(&both, other),
            3..5 => self.rng.pick_or(&carried, other),
            5 => self.rng.pick_or(&empty, other),
            _ => other,
        };
        let tag = self.tag_to_turn(state, 40).unwrap_or(tag);
        let secret = self.secret(state, &tag);
        let (tag, secret) = self.own_at_the_limit(state).unwrap_or((tag, secret));
        let wrong = carried.contains(&tag) && self.stays_at_the_limit(state);
        Call::Tomb {
            areas: self.areas(4_096),
            peer: self.peer(state),
            tag,
            secret: if wrong { WRONG_SECRET } else { secret },
        }
    }

    /// A row that turned now would take the list out of the comparison with the source, and it is to stay there.
    fn stays_at_the_limit(&self, state: &State) -> bool {
        self.stays && state.tombstones().count() >= TOMBSTONE_LIMIT
    }

    /// In such a list half of the tombs are right ones for own rows, where there are any.
    fn own_at_the_limit(&mut self, state: &State) -> Option<(Tag, [u8; 16])> {
        if state.own.is_empty() || !self.stays_at_the_limit(state) || self.rng.percent(50) {
            return None;
        }
        let row = &state.own[self.rng.below(state.own.len())];
        Some((row.tag, row.secret))
    }

    /// In so many of a hundred calls of a list around 1,024 tombstones, the tag of a carried row; of one that is tombstoned half of the time,
    /// where there is one.
    fn tag_to_turn(&mut self, state: &State, percent: usize) -> Option<Tag> {
        if self.profile != super::Profile::Tombs || !self.rng.percent(percent) {
            return None;
        }
        let carried: Vec<Tag> = state.carried().map(|(_, _, envelope)| envelope.tag).collect();
        let is_tombstoned = |tag: &&Tag| state.tombstones().any(|row| row.held.tag() == *tag);
        let both: Vec<Tag> = carried.iter().filter(is_tombstoned).copied().collect();
        let any = (!carried.is_empty()).then(|| self.rng.pick(&carried))?;
        Some(if self.rng.percent(50) {
            self.rng.pick_or(&both, any)
        } else {
            any
        })
    }

    fn opened(&mut self, state: &State) -> Call {
        let tag = if self.rng.percent(40) {
            self.new_tag()
        } else {
            self.tag(state)
        };
        Call::Opened {
            areas: self.areas(4_096),
            peer: self.peer(state),
            tag,
            secret: self.secret(state, &tag),
            expiry: self.expiry(state),
        }
    }

    fn row_blob(&mut self, state: &State) -> Call {
        let slots: Vec<u64> = state.held.iter().map(|row| row.slot).collect();
        let other = self.rng.pick(&[0, 1, 2, 3, state.next_slot, u64::MAX]);
        let slot = if self.rng.percent(75) {
            self.rng.pick_or(&slots, other)
        } else {
            other
        };
        Call::RowBlob {
            areas: self.areas(2_110),
            slot,
        }
    }

    fn save(&mut self) -> Call {
        let file = 10 + 2_122 * self.sizes.carried_cells + 49 * self.sizes.tombstone_rows;
        Call::Save {
            areas: self.areas(file),
        }
    }

    /// Pages there are, the first that is not, and numbers that mean another page if they are cut or multiplied in machine words.
    fn page(&mut self, state: &State) -> Call {
        let last = (state.held.len().saturating_sub(1) / PAGE_ROWS) as u64;
        let low = self.rng.below(3) as u64;
        let number = match self.rng.below(10) {
            0..2 => 0,
            2 => 1,
            3 => self.rng.below(last as usize + 1) as u64,
            4..6 => last,
            6..8 => last + 1,
            8 => (1 << 32) + low,
            _ => self.rng.pick(&[u64::MAX, u64::MAX / PAGE_ROWS as u64 + 1 + low]),
        };
        let mut areas = Areas::enough(&self.sizes);
        areas.answer = match self.rng.below(10) {
            0 => self.rng.pick(&[0, PAGE_BYTES / 2, PAGE_BYTES - 1, PAGE_BYTES - 1]),
            1 => PAGE_BYTES + 1,
            2 => areas.answer,
            _ => PAGE_BYTES,
        };
        Call::Page { areas, number }
    }

    pub(super) fn call(&mut self, kind: Kind, state: &State) -> Call {
        match kind {
            Kind::Contact => self.contact_call(state),
            Kind::Setting => self.setting(),
            Kind::Clock => self.clock(state),
            Kind::FreshExchange => Call::FreshExchange {
                areas: self.areas(4_096),
                exchange: self.exchange_with(state, |open| open.offered.is_empty()).0,
                peer: self.peer(state),
            },
            Kind::Envelope => Call::Envelope {
                areas: self.areas(4_096),
                window: self.window_area(state),
                peer: self.peer(state),
                envelope: self.envelope(state),
            },
            Kind::Inventory => self.inventory(state),
            Kind::Fetch => Call::Fetch {
                areas: self.areas(4_096),
                peer: self.peer(state),
                tag: self.tag(state),
            },
            Kind::CustodyCode => self.custody_code(state),
            Kind::Tomb => self.tomb(state),
            Kind::Opened => self.opened(state),
            Kind::Failed => Call::Failed {
                peer: self.peer(state),
                tag: self.tag(state),
            },
            Kind::StoredTombstone => self.stored_tombstone(state),
            Kind::OwnEnvelope => self.own_call(state),
            Kind::Maintenance => Call::Maintenance {
                areas: self.areas(4_096),
            },
            Kind::InventoryOfOurs => Call::InventoryOfOurs {
                areas: self.areas(4_096),
                peer: self.peer(state),
            },
            Kind::Window => self.window_call(),
            Kind::RowBlob => self.row_blob(state),
            Kind::RowRead => self.row_read(state),
            Kind::Save => self.save(),
            Kind::Load => Call::Load { file: self.file(state) },
            Kind::Page => self.page(state),
        }
    }
}

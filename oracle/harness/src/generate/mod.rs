//! Random lists of calls, by seed. Each call is made in view of the state that the calls before it left, so that
//! tags, secrets, exchanges and times meet.

mod calls;
mod files;
pub mod logs;
mod parts;
mod pool;
mod profile;
mod rng;
mod windows;

pub use pool::secret_of;
pub use profile::Profile;
pub use rng::Rng;

use crate::TOMBSTONE_LIMIT;
use pool::Pool;
use post::{Areas, Call, FileRecord, Kind, Sizes, State, Tag, Verification, WindowRow, encode_file};
use std::collections::VecDeque;

pub struct Generator {
    rng: Rng,
    pub profile: Profile,
    pub sizes: Sizes,
    pool: Pool,
    /// The rows of the last window made, for envelopes that are ours.
    last_window: Vec<WindowRow>,
    /// Calls that a list begins with.
    opening: VecDeque<Call>,
    made: usize,
    numbered: u64,
    /// No row turns with 1,024 tombstones there, so that the list stays in the comparison with the source.
    stays: bool,
}

/// A full list begins with a load of so many rows of each of its depositors, who are verified, and of so many tombstones.
const DEPOSITORS: usize = 8;
const EACH: usize = 31;
const LOADED_TOMBSTONES: usize = 1020;
/// Own rows of a full list, so that its inventory counts more than 255 rows.
const OWN: usize = 128;

pub const VERIFICATIONS: [Verification; 3] = [
    Verification::Unverified,
    Verification::Verified,
    Verification::Compromised,
];

impl Generator {
    pub fn new(seed: u64, profile: Profile) -> Self {
        let mut rng = Rng::new(seed);
        let sizes = profile.sizes(&mut rng);
        let pool = Pool::new(&mut rng);
        let stays = profile.fills_tombstones() && rng.percent(30);
        let mut generator = Self {
            rng,
            profile,
            sizes,
            pool,
            last_window: Vec::new(),
            opening: VecDeque::new(),
            made: 0,
            numbered: 0,
            stays,
        };
        generator.open();
        generator
    }

    /// A few contacts and a time; what the profile needs besides comes once these are known.
    fn open(&mut self) {
        let contacts = match self.profile {
            Profile::Quota | Profile::Full => 10,
            Profile::Contacts => self.rng.pick(&[3, 256]),
            Profile::Files => self.rng.pick(&[3, 10]),
            _ => self.rng.between(2, 6),
        };
        for place in 0..contacts {
            let id = self.pool.contacts.get(place).copied().unwrap_or(1000 + place as u64);
            let verification = self.rng.pick(&VERIFICATIONS);
            let verification = if place < self.profile.verified() {
                Verification::Verified
            } else {
                verification
            };
            self.opening.push_back(Call::Contact { id, verification });
        }
        if self.rng.percent(70) {
            let seconds = self.rng.pick(&[600, 659, 86_400, 60 * (u32::MAX as u64 - 100)]);
            self.opening.push_back(Call::Clock { seconds });
        }
        for exchange in 0..self.rng.below(self.sizes.exchanges + 1) {
            let areas = Areas::enough(&self.sizes);
            let peer = self.pool.contacts[exchange % 2];
            self.opening.push_back(Call::FreshExchange { areas, exchange, peer });
        }
    }

    /// Below the limit, at it, above it; as many as there are rows.
    fn loaded_tombstones(&mut self) -> usize {
        match self.rng.below(6) {
            0 => self.rng.between(TOMBSTONE_LIMIT - 9, TOMBSTONE_LIMIT - 1),
            1 => TOMBSTONE_LIMIT - 1,
            2 => TOMBSTONE_LIMIT,
            3..5 => self.rng.between(TOMBSTONE_LIMIT + 1, TOMBSTONE_LIMIT + 6),
            _ => self.sizes.tombstone_rows,
        }
    }

    /// Once the contacts stand: many rows at once, by a load, or many own rows.
    fn fill(&mut self, state: &State) {
        let (carried, tombstones, each) = match self.profile {
            Profile::Quota => (
                self.rng.pick(&[255, 254, 250, 100]),
                2,
                self.rng.pick(&[31, 32, 32, 15, 16]),
            ),
            Profile::Tombs => (self.rng.between(5, 20), self.loaded_tombstones(), 16),
            Profile::Slots => (3, 2, 16),
            Profile::Full => (DEPOSITORS * EACH, LOADED_TOMBSTONES, EACH),
            _ => (0, 0, 1),
        };
        let room = self.sizes.tombstone_rows;
        if carried > 0 {
            let mut records = self.held_rows(state, carried, tombstones.min(room), each);
            let next = match self.profile {
                Profile::Slots => u64::MAX - self.rng.below(4) as u64,
                Profile::Tombs if self.rng.percent(25) => u64::MAX - self.rng.below(9) as u64,
                _ => 5_000,
            };
            records.insert(0, FileRecord::NextSlot(next));
            self.opening.push_back(Call::Load {
                file: encode_file(&records),
            });
            if self.profile == Profile::Tombs && !self.stays && self.rng.percent(90) {
                self.turn_some(&records);
            }
        }
        if self.profile == Profile::Full {
            self.fill_up(state);
        }
        if self.profile == Profile::Own && self.rng.percent(50) {
            for _ in 0..self.rng.between(248, 256) {
                let call = self.numbered_own(state);
                self.opening.push_back(call);
            }
        }
    }

    /// After the load of a list around 1,024 tombstones: some of its carried rows turn; of some the tag is tombstoned first.
    fn turn_some(&mut self, records: &[FileRecord]) {
        let areas = Areas::enough(&self.sizes);
        let carried = records.iter().filter_map(|record| match record {
            FileRecord::Row(b'C', _, blob) => Some(post::array(blob, 9)),
            _ => None,
        });
        let tags: Vec<Tag> = carried.take(self.rng.between(1, 6)).collect();
        for tag in tags {
            let secret = secret_of(&tag);
            if self.rng.percent(40) {
                self.opening.push_back(Call::StoredTombstone {
                    areas,
                    tag,
                    secret,
                    expiry: self.rng.pick(&[0, 1, u32::MAX]),
                });
            }
            self.opening.push_back(Call::Tomb {
                areas,
                peer: self.pool.contacts[0],
                tag,
                secret,
            });
        }
    }

    /// After the load of a full list: one row more of each of its depositors, which makes 256 carried rows, and one of another contact; tombstones up
    /// to 1,024 and one more; own rows; a save, and an inventory of all.
    fn fill_up(&mut self, state: &State) {
        let (areas, none) = (Areas::enough(&self.sizes), || Vec::new().into());
        for place in 0..=DEPOSITORS {
            let envelope = self.plain_envelope(state);
            self.opening.push_back(Call::Envelope {
                areas,
                window: none(),
                peer: self.pool.contacts[place],
                envelope,
            });
        }
        for _ in LOADED_TOMBSTONES..=TOMBSTONE_LIMIT {
            let tag = self.new_tag();
            self.opening.push_back(Call::StoredTombstone {
                areas,
                tag,
                secret: secret_of(&tag),
                expiry: u32::MAX,
            });
        }
        for _ in 0..OWN {
            let call = self.numbered_own(state);
            self.opening.push_back(call);
        }
        let (exchange, peer) = (0, self.pool.contacts[0]);
        self.opening.extend([
            Call::Save { areas },
            Call::FreshExchange { areas, exchange, peer },
            Call::Inventory {
                areas,
                window: none(),
                exchange,
                peer,
                prefixes: none(),
            },
        ]);
    }

    pub fn next(&mut self, state: &State) -> Call {
        self.made += 1;
        if self.opening.is_empty() && self.made > 2 && self.numbered == 0 {
            self.numbered = 1;
            self.fill(state);
        }
        if let Some(call) = self.opening.pop_front() {
            return call;
        }
        let kind = self.kind();
        self.call(kind, state)
    }

    /// A call of this kind.
    pub fn of_kind(&mut self, kind: Kind, state: &State) -> Call {
        self.call(kind, state)
    }

    fn kind(&mut self) -> Kind {
        let profile = self.profile;
        let total: usize = Kind::ALL.into_iter().map(|kind| profile.weight(kind)).sum();
        let mut left = self.rng.below(total);
        for kind in Kind::ALL {
            let weight = profile.weight(kind);
            if left < weight {
                return kind;
            }
            left -= weight;
        }
        unreachable!("the weights add up")
    }

    /// Areas that are long enough, or seldom not; `answer` is what the call asks of its answer.
    fn areas(&mut self, answer: usize) -> Areas {
        let mut areas = Areas::enough(&self.sizes);
        areas.answer = answer;
        let short = self.rng.percent(5);
        let field = match self.rng.below(5) {
            0 => &mut areas.replies,
            1 => &mut areas.prefixes,
            2 => &mut areas.offers,
            3 => &mut areas.actions,
            _ => &mut areas.answer,
        };
        if short {
            let length = *field;
            *field = self.rng.pick(&[length - 1, length - 1, length / 2, 0]);
        } else if self.rng.percent(10) {
            *field += self.rng.pick(&[1, 100]);
        }
        areas
    }
}

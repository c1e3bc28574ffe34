//! Random drill logs, by seed.

use super::pool::secret_of;
use super::{Generator, Profile};
use crate::drill::{Drill, Stopped};
use post::{Areas, Call, Envelope, Kind, Post, Sizes, Verification};
use rules::Rules;

/// A record as it stands in a log.
pub fn record(mark: &[u8; 2], body: &[u8]) -> Vec<u8> {
    [&mark[..], &(body.len() as u16).to_be_bytes(), body].concat()
}

/// The record that makes this call; some calls have none.
pub fn record_of(call: &Call) -> Option<Vec<u8>> {
    let peer = call.peer().unwrap_or_default().to_be_bytes();
    Some(match call {
        Call::Clock { seconds } => record(b"CK", &seconds.to_be_bytes()),
        Call::Contact { id, verification } => {
            let byte = match verification {
                Verification::Unverified => 0,
                Verification::Verified => 1,
                Verification::Compromised => 2,
            };
            record(b"PT", &[&id.to_be_bytes()[..], &[byte]].concat())
        }
        Call::FreshExchange { .. } => record(b"SS", &peer),
        Call::Envelope { envelope, .. } => {
            let head = [
                &envelope.tag[..],
                &envelope.commitment,
                &envelope.expiry.to_be_bytes(),
                &[envelope.copies],
            ];
            record(b"EN", &[&peer[..], &head.concat(), &envelope.ciphertext].concat())
        }
        Call::Inventory { prefixes, .. } => record(b"IV", &[&peer[..], prefixes].concat()),
        Call::Fetch { tag, .. } => record(b"FE", &[&peer[..], tag].concat()),
        Call::CustodyCode { tag, code, .. } => record(b"CU", &[&peer[..], tag, &[code.code()]].concat()),
        Call::Tomb { tag, secret, .. } => record(b"TB", &[&peer[..], tag, secret].concat()),
        Call::Maintenance { .. } => record(b"MT", &[]),
        Call::Setting {
            enabled,
            copies,
            lifetime,
        } => record(
            b"CF",
            &[&[u8::from(*enabled), *copies][..], &lifetime.to_be_bytes()].concat(),
        ),
        _ => return None,
    })
}

const KINDS: [Kind; 10] = [
    Kind::Clock,
    Kind::Contact,
    Kind::FreshExchange,
    Kind::Envelope,
    Kind::Inventory,
    Kind::Fetch,
    Kind::CustodyCode,
    Kind::Tomb,
    Kind::Maintenance,
    Kind::Setting,
];

/// What logs go after. The last slots and own rows are out of a log's reach, and so are files and windows.
const LOG_PROFILES: [Profile; 5] = [
    Profile::Exchange,
    Profile::Mixed,
    Profile::Quota,
    Profile::Tombs,
    Profile::Contacts,
];

impl Generator {
    fn for_logs(seed: u64) -> Self {
        let profile = LOG_PROFILES[(seed % LOG_PROFILES.len() as u64) as usize];
        let mut generator = Self::new(seed, profile);
        generator.sizes = Sizes::DRILL;
        generator.stays = false;
        if profile == Profile::Tombs {
            generator.turn_many();
        }
        generator
    }

    /// Envelopes that are taken and turned at once, until about 1,024 tombstones are there.
    fn turn_many(&mut self) {
        let peer = self.pool.contacts[0];
        let seconds = self.opening.iter().find_map(|call| match call {
            Call::Clock { seconds } => Some(*seconds),
            _ => None,
        });
        let minute = (seconds.unwrap_or(0) / 60) as u32;
        for number in 0..self.rng.between(1_016, 1_036) as u32 {
            let ends = self.rng.pick(&[61, 62, 63]);
            let mut tag = [0x66; 16];
            tag[..4].copy_from_slice(&number.to_be_bytes());
            let (areas, secret) = (Areas::enough(&Sizes::DRILL), secret_of(&tag));
            self.opening.push_back(Call::Envelope {
                areas,
                window: Vec::new().into(),
                peer,
                envelope: Envelope {
                    tag,
                    commitment: rules::commitment(&secret),
                    expiry: minute.saturating_add(ends),
                    copies: 3,
                    ciphertext: vec![0; 48].into(),
                },
            });
            self.opening.push_back(Call::Tomb {
                areas,
                peer,
                tag,
                secret,
            });
        }
    }

    fn log_kind(&mut self) -> Kind {
        let weights: Vec<Kind> = KINDS
            .into_iter()
            .flat_map(|kind| std::iter::repeat_n(kind, self.profile.weight(kind)))
            .collect();
        self.rng.pick(&weights)
    }

    fn log_record(&mut self, post: &mut impl Post) -> Vec<u8> {
        let state = post.state().into_owned();
        let call = match self.opening.pop_front() {
            Some(call) => call,
            None => {
                let kind = self.log_kind();
                self.call(kind, &state)
            }
        };
        record_of(&call).expect("a kind that has a record")
    }

    /// A record that meets 13, or is cut off.
    fn damaged(&mut self, mut record: Vec<u8>) -> Vec<u8> {
        match self.rng.below(8) {
            0 => record[self.rng.below(2)] ^= 0x20,
            1 => record[2..4].copy_from_slice(&8_193u16.to_be_bytes()),
            2 => record.truncate(self.rng.between(1, record.len() - 1)),
            3 => {
                record.push(0);
                let length = (record.len() - 4) as u16;
                record[2..4].copy_from_slice(&length.to_be_bytes());
            }
            4 => record = self::record(b"CU", &[&[0; 24][..], &[5 + self.rng.below(250) as u8]].concat()),
            5 => record = self::record(b"PT", &[0, 0, 0, 0, 0, 0, 0, 5, 3 + self.rng.below(250) as u8]),
            6 => record = self::record(b"CF", &[2 + self.rng.below(250) as u8, 6, 5, 160]),
            _ => record = self::record(b"EN", &vec![0; self.rng.between(0, 44)]),
        }
        record
    }
}

/// A log, how many records it has, and why it ends in one that meets 13, if it does.
pub struct Made {
    pub log: Vec<u8>,
    pub records: usize,
    pub stopped: Option<Stopped>,
}

/// A log of at most so many records. Half of the logs end in a record that meets 13, unless that is not wanted: then one that would
/// meet it is left out, and another is taken.
pub fn log(seed: u64, records: usize, refused: bool) -> Made {
    let mut generator = Generator::for_logs(seed);
    let mut drill = Drill::new(Rules::new(Sizes::DRILL));
    let mut made = Made {
        log: Vec::new(),
        records: 0,
        stopped: None,
    };
    while made.records < records && made.stopped.is_none() {
        let mut record = generator.log_record(&mut drill.post);
        let last = made.records + 1 == records;
        if refused && last && generator.rng.percent(60) {
            record = generator.damaged(record);
        }
        drill.feed(&record);
        if !refused && drill.stopped.take().is_some() {
            continue;
        }
        made.stopped = drill.stopped;
        made.records += 1;
        made.log.extend_from_slice(&record);
    }
    made
}

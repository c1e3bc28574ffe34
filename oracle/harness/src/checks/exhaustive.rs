//! Short inputs, all of them, against formulas written out here or the second statement.

use super::bench::*;
use super::{Check, Outcome, holds, same};
use crate::drill::{Stopped, run};
use crate::generate::logs::record;
use lent::Model;
use post::{
    Answer, Areas, Call, Custody, Dir, Envelope, Held, Post, Prefix, Reply, Sizes, Tag, Verification, WindowRow,
};
use reference::{Reference, raw};
use rules::Rules;

const INNER: [usize; 7] = [32, 64, 128, 256, 512, 1024, 2048];

fn codes() -> Outcome {
    for byte in 0..=255 {
        same(raw::custody_of(byte), Custody::of(byte).map(Custody::code))?;
        same(raw::custody_of(byte), (byte <= 4).then_some(byte))?;
    }
    Ok(())
}

fn settings() -> Outcome {
    for copies in 0..=255 {
        for lifetime in 0..=u16::MAX {
            let inside = (1..=16).contains(&copies) && (60..=10_080).contains(&lifetime);
            if raw::setting_passes(copies, lifetime) != inside {
                return Err(format!("{copies} copies, lifetime {lifetime}"));
            }
        }
    }
    Ok(())
}

fn lengths() -> Outcome {
    let times = [
        (0, 0),
        (1, 0),
        (10, 10),
        (11, 10),
        (9, 10),
        (u32::MAX, u32::MAX),
        (u32::MAX, u32::MAX - 1),
    ];
    for length in 0..=5000 {
        let sized = length >= 16 && INNER.contains(&(length - 16));
        for copies in [0, 1, 2, 255] {
            for (expiry, now) in times {
                let want = sized && copies > 0 && expiry > now;
                same((length, raw::valid(length, copies, expiry, now)), (length, want))?;
            }
        }
    }
    Ok(())
}

fn leb128() -> Outcome {
    let near_powers = (0..32).flat_map(|bit| [-1i64, 0, 1].map(|step| ((1i64 << bit) + step) as u32));
    let ends = [u32::MAX, u32::MAX - 1];
    for value in (0..=70_000).chain(near_powers).chain(ends) {
        let bytes = raw::leb128(value);
        same(&bytes, &rules::leb128(value))?;
        same(raw::read_leb128(&bytes), Some((value, bytes.len())))?;
    }
    same(raw::leb128(u32::MAX), vec![0xff, 0xff, 0xff, 0xff, 0x0f])?;
    same(raw::leb128(128), vec![0x80, 1])
}

fn labels() -> Outcome {
    for length in (0..=300).chain([65_525, 65_526]) {
        let label = vec![b'l'; length];
        same(raw::labelled(&label), rules::labelled(&label))?;
    }
    Ok(())
}

fn route_tags() -> Outcome {
    for generation in 0..=255 {
        for dir in [Dir::I, Dir::R] {
            for index in [
                0,
                1,
                127,
                128,
                16_383,
                16_384,
                2_097_151,
                2_097_152,
                268_435_455,
                268_435_456,
                u32::MAX,
            ] {
                let key = [generation; 32];
                let (one, two) = (
                    raw::route_tag(&key, dir.label(), generation, index),
                    rules::route_tag(&key, dir.label(), generation, index),
                );
                same(one, two)?;
            }
        }
    }
    for byte in 0..=255 {
        same(raw::commitment(&[byte; 16]), rules::commitment(&[byte; 16]))?;
    }
    Ok(())
}

/// Every number of copies: what is offered, and what an accepting code leaves.
fn copies_offered() -> Outcome {
    for there in 0..=255u8 {
        let mut source = source();
        source.put_held(0, &carried(VERIFIED, tag(1), 100, there));
        let replies = listed(&mut source, 0, VERIFIED, &[], &[]);
        let offered = replies.iter().find_map(|reply| match reply {
            Reply::Envelope(envelope) => Some(envelope.copies),
            _ => None,
        });
        same(offered, (there > 1).then_some(there / 2))?;
        source.custody_code(0, VERIFIED, tag(1), 0);
        same(copies(&source, tag(1)), Some(there - offered.unwrap_or(0)))?;
    }
    Ok(())
}

/// Lists of up to two of some things, all of them.
fn up_to_two<T: Copy>(from: &[T]) -> Vec<Vec<T>> {
    let one = from.iter().map(|item| vec![*item]);
    let two = from
        .iter()
        .flat_map(|item| from.iter().map(|other| vec![*item, *other]));
    [Vec::new()].into_iter().chain(one).chain(two).collect()
}

/// What an empty inventory meets.
struct Met<'a> {
    window: &'a [Tag],
    tombstones: &'a [Tag],
    bad: &'a [Tag],
    listed: &'a [Prefix],
}

impl Met<'_> {
    fn inventory(&self, prefixes: &[Prefix]) -> Call {
        let row = |(index, tag): (u32, &Tag)| window_row(VERIFIED, index, *tag);
        let rows: Vec<WindowRow> = (0..).zip(self.window).map(row).collect();
        Call::Inventory {
            areas: Areas::enough(&SIZES),
            window: post::encode_window(&rows),
            exchange: 0,
            peer: VERIFIED,
            prefixes: prefixes.concat().into(),
        }
    }

    /// What comes before it on a fresh post.
    fn calls(&self) -> Vec<Call> {
        let (areas, peer, verification) = (Areas::enough(&SIZES), VERIFIED, Verification::Verified);
        let stored = |tag: &Tag| Call::StoredTombstone {
            areas,
            tag: *tag,
            secret: SECRET,
            expiry: 0,
        };
        let failed = |tag: &Tag| Call::Failed { peer, tag: *tag };
        let mut calls = vec![Call::Contact { id: peer, verification }];
        calls.push(Call::FreshExchange {
            areas,
            exchange: 0,
            peer,
        });
        calls.extend(self.tombstones.iter().map(stored));
        calls.extend(self.bad.iter().map(failed));
        calls.extend((!self.listed.is_empty()).then(|| self.inventory(self.listed)));
        calls
    }

    fn fetched(&self, mut post: impl Post) -> Vec<Reply> {
        for call in self.calls() {
            assert!(!matches!(post.perform(&call), Answer::Refused(_)), "{call:?}");
        }
        let Answer::Done { mut replies, .. } = post.perform(&self.inventory(&[])) else {
            panic!("the empty inventory was not answered");
        };
        replies.retain(|reply| matches!(reply, Reply::Fetch(_)));
        replies
    }

    /// The first window tag of each listed prefix, unless it is one of those that stop a fetch.
    fn first_unless(&self, stopped: &[&[Tag]]) -> Vec<Reply> {
        let first = |prefix: &Prefix| self.window.iter().find(|tag| tag.starts_with(prefix));
        let met = self.listed.iter().filter_map(first);
        met.filter(|tag| !stopped.iter().any(|tags| tags.contains(tag)))
            .map(|tag| Reply::Fetch(*tag))
            .collect()
    }

    /// Bad tags alone stop the source as it lies; with request Two's line tombstones do too.
    fn check(&self) -> Outcome {
        let (old, new) = (before::Reference::new(SIZES), Reference::new(SIZES));
        same(self.fetched(old), self.first_unless(&[self.bad]))?;
        let wanted = self.first_unless(&[self.bad, self.tombstones]);
        same(&self.fetched(new), &wanted)?;
        same(self.fetched(Rules::new(SIZES)), wanted)
    }
}

/// Window rows, tombstones and listed prefixes, up to two of each, and up to one bad tag; two of the tags have one prefix.
fn fetches() -> Outcome {
    let tags = up_to_two(&[tag_in(1, 7), tag_in(1, 8), tag_in(2, 9)]);
    let prefixes = up_to_two(&[prefix(1), prefix(2)]);
    for window in &tags {
        for tombstones in &tags {
            for bad in tags.iter().filter(|bad| bad.len() < 2) {
                for listed in &prefixes {
                    let met = Met {
                        window,
                        tombstones,
                        bad,
                        listed,
                    };
                    met.check()?;
                }
            }
        }
    }
    Ok(())
}

/// Every second of an hour and more: the minute is what decides.
fn seconds() -> Outcome {
    for seconds in 0..=4_000u64 {
        let mut source = source();
        source.clock(seconds);
        source.put_held(0, &tombstone(tag(9), (seconds / 60) as u32));
        source.put_held(1, &tombstone(tag(8), (seconds / 60) as u32 + 1));
        same(source.maintain().actions, vec![post::Action::Delete { slot: 0 }])?;
    }
    Ok(())
}

/// Every count of skipped keys with one chain, and every place of a chain near its end.
fn windows() -> Outcome {
    let skipped = |count: u32| -> Vec<post::SkippedRow> {
        let row = |index| post::SkippedRow {
            dir: b'R',
            generation: 9,
            index,
        };
        (0..count).map(row).collect()
    };
    let chain = |next| post::ChainRow {
        dir: b'I',
        generation: 0,
        next,
    };
    for count in 0..=500 {
        let listed = raw::window(&skipped(count), &[chain(7)]);
        same(listed.len(), 500)?;
        let from_chain: Vec<u32> = listed.iter().filter(|row| row.0 == Dir::I).map(|row| row.2).collect();
        same(from_chain, (7..507 - count).collect())?;
    }
    for left in 0..=600u64 {
        let listed = raw::window(&[], &[chain((1 << 32) - left)]);
        same(listed.len() as u64, left.min(500))?;
    }
    Ok(())
}

/// Blobs of every length of each kind, and every first byte; read by the source and by the second statement.
fn row_blobs() -> Outcome {
    let mut rules = Rules::new(Sizes::DRILL);
    let mut agree = |blob: Vec<u8>| {
        let call = post::Call::RowRead {
            blob: blob.clone().into(),
        };
        same(post::Answer::Row(raw::read_row(&blob)), rules.perform(&call))
    };
    for length in 0..=2200 {
        for kind in [0, 1, 2] {
            let mut blob = vec![1; length];
            if let Some(first) = blob.first_mut() {
                *first = kind;
            }
            agree(blob)?;
        }
    }
    for kind in 0..=255 {
        for length in [37, 46 + 48] {
            let mut blob = vec![3; length];
            blob[0] = kind;
            agree(blob)?;
        }
    }
    for copies in 0..=255 {
        let blob = raw::blob(&carried(u64::MAX, tag(1), u32::from(copies), copies));
        agree(blob)?;
    }
    Ok(())
}

/// The two statements that read carried blobs beside the source.
struct Readers {
    second: Rules,
    third: Model,
}

impl Readers {
    /// The length and the expiry decide whether it is read; copies do not.
    fn check(&mut self, length: usize, expiry: u32, copies: u8) -> Outcome {
        let held = Held::Carried {
            depositor: u64::MAX,
            envelope: Envelope {
                ciphertext: vec![7; length].into(),
                ..envelope(tag(1), expiry, copies)
            },
        };
        let blob = raw::blob(&held);
        let sized = INNER.iter().any(|inner| inner + 16 == length);
        let want = Answer::Row((sized && expiry > 0).then_some(held));
        same(&Answer::Row(raw::read_row(&blob)), &want)?;
        let call = Call::RowRead { blob: blob.into() };
        same(&self.second.perform(&call), &want)?;
        same(&self.third.perform(&call), &want)
    }
}

fn carried_blobs() -> Outcome {
    let mut readers = Readers {
        second: Rules::new(Sizes::DRILL),
        third: Model::new(Sizes::DRILL),
    };
    for length in 0..=2_100 {
        for copies in [0, 1] {
            readers.check(length, 1, copies)?;
        }
    }
    for inner in INNER {
        for copies in 0..=255 {
            for expiry in [0, 1, u32::MAX] {
                readers.check(inner + 16, expiry, copies)?;
            }
        }
    }
    Ok(())
}

/// Every mark: ten are known.
fn marks() -> Outcome {
    let known = [b"CK", b"PT", b"SS", b"EN", b"IV", b"FE", b"CU", b"TB", b"MT", b"CF"];
    for number in 0..=u16::MAX {
        let mark = number.to_be_bytes();
        let (_, stopped) = run(Rules::new(Sizes::DRILL), &record(&mark, &[]));
        let want = match mark {
            mark if !known.contains(&&mark) => Some(Stopped::Mark),
            mark if mark == *b"MT" => None,
            _ => Some(Stopped::Shape),
        };
        same((mark, stopped), (mark, want))?;
    }
    Ok(())
}

/// Every body length of every mark up to 120 bytes, and around 8,192.
fn body_lengths() -> Outcome {
    type Fits = fn(usize) -> bool;
    let shapes: [(&[u8; 2], Fits); 10] = [
        (b"CK", |length| length == 8),
        (b"PT", |length| length == 9),
        (b"SS", |length| length == 8),
        (b"EN", |length| length >= 45),
        (b"IV", |length| length >= 8 && length.is_multiple_of(8)),
        (b"FE", |length| length == 24),
        (b"CU", |length| length == 25),
        (b"TB", |length| length == 40),
        (b"MT", |length| length == 0),
        (b"CF", |length| length == 4),
    ];
    for (mark, fits) in shapes {
        for length in (0..=120).chain(8_185..=8_200) {
            let (_, stopped) = run(Reference::new(Sizes::DRILL), &record(mark, &vec![0; length]));
            let want = match length {
                8_193.. => Some(Stopped::TooLong),
                length if fits(length) => None,
                _ => Some(Stopped::Shape),
            };
            same((mark, length, stopped), (mark, length, want))?;
        }
    }
    Ok(())
}

/// Every byte as verification, code and enabled.
fn bytes_in_records() -> Outcome {
    for byte in 0..=255u8 {
        let stopped = |record: Vec<u8>| run(Reference::new(Sizes::DRILL), &record).1;
        let wrong = |fine: bool| (!fine).then_some(Stopped::Byte);
        same(
            stopped(record(b"PT", &[0, 0, 0, 0, 0, 0, 0, 5, byte])),
            wrong(byte <= 2),
        )?;
        same(
            stopped(record(b"CU", &[&[0; 24][..], &[byte]].concat())),
            wrong(byte <= 4),
        )?;
        same(stopped(record(b"CF", &[byte, 6, 5, 160])), wrong(byte <= 1))?;
    }
    Ok(())
}

/// Every byte as the direction of a window row.
fn directions() -> Outcome {
    for byte in 0..=255u8 {
        let mut bench = Bench::new(SIZES);
        let mut row = window_row(VERIFIED, 0, tag(9));
        row.dir = byte;
        let areas = bench.areas;
        let number = bench.refusal(post::Call::Envelope {
            areas,
            window: post::encode_window(&[row]),
            peer: VERIFIED,
            envelope: envelope(tag(1), 100, 1),
        });
        holds(
            number == if b"IR".contains(&byte) { None } else { Some(12) },
            "a direction is I or R",
        )?;
    }
    Ok(())
}

pub const CHECKS: &[Check] = &[
    ("all custody bytes", codes),
    ("all copies and all lifetimes", settings),
    ("all ciphertext lengths to 5,000", lengths),
    ("LEB128 of 0 to 70,000 and around every power of two", leb128),
    ("labels", labels),
    ("route tags of all generations, and commitments", route_tags),
    ("all numbers of copies", copies_offered),
    (
        "fetches of windows, tombstones and lists of up to two, all of them",
        fetches,
    ),
    (
        "counts of up to three rows, their copies, listed prefixes and tombstones, all of them",
        super::counts::counts,
    ),
    (
        "rows that turn at 1,024: three tombstones' expiries, its own, its slot, its tag, all of them",
        super::limit::all_cases,
    ),
    (
        "rows that turn: 1,020 to 1,030 tombstones and every R to 1,032",
        super::limit::all_rows,
    ),
    ("all seconds of an hour", seconds),
    ("all counts of skipped keys, all places near a chain's end", windows),
    ("row blobs of all lengths to 2,200", row_blobs),
    ("carried row blobs with all copies", carried_blobs),
    ("all marks of a log", marks),
    ("all body lengths of a log", body_lengths),
    ("all bytes as verification, code, enabled", bytes_in_records),
    ("all bytes as direction", directions),
];

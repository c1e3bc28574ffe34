//! Request Three's count of few rows, copies, listed prefixes and tombstones, all of them, against the request's sentence as a formula.

use super::bench::*;
use super::{Outcome, same};
use post::{Answer, Call, FileRecord, Prefix, Reply, Sizes, Tag, array, encode_file};
use reference::raw;

/// As `SIZES`, with rows for all three tombstones.
const ROOM: Sizes = Sizes {
    tombstone_rows: 3,
    ..SIZES
};

/// Of the own row that `own_call` makes.
const MESSAGE: u32 = 1;
const LIFETIME: u16 = 1_440;

/// What a load brings, and what the peer lists.
struct Case {
    carried: Vec<(Tag, u8)>,
    tombstones: Vec<Tag>,
    listed: Vec<Prefix>,
}

/// Some of a few things: every choice of them, in their order.
fn chosen<T: Copy>(from: &[T]) -> Vec<Vec<T>> {
    let choice = |bits: usize| {
        let places = (0..from.len()).filter(|place| bits >> place & 1 == 1);
        places.map(|place| from[place]).collect()
    };
    (0..1 << from.len()).map(choice).collect()
}

/// Up to two of the tags, each with 1, 2 or 3 copies.
fn carried_rows(tags: &[Tag]) -> Vec<Vec<(Tag, u8)>> {
    let mut all = Vec::new();
    for some in chosen(tags).into_iter().filter(|some| some.len() < 3) {
        let with = |number: usize| {
            (0..)
                .zip(&some)
                .map(move |(place, tag)| (*tag, 1 + (number / 3usize.pow(place) % 3) as u8))
        };
        all.extend((0..3usize.pow(some.len() as u32)).map(|number| with(number).collect()));
    }
    all
}

fn cases(tags: &[Tag; 3]) -> Vec<Case> {
    let prefixes: [Prefix; 2] = [array(&tags[0], 0), array(&tags[2], 0)];
    let mut all = Vec::new();
    for carried in carried_rows(tags) {
        for tombstones in chosen(tags) {
            for listed in chosen(&prefixes) {
                all.push(Case {
                    carried: carried.clone(),
                    tombstones: tombstones.clone(),
                    listed,
                });
            }
        }
    }
    all
}

impl Case {
    fn file(&self) -> Call {
        let row = |(tag, copies): &(Tag, u8)| (b'C', raw::blob(&carried(VERIFIED, *tag, 100, *copies)));
        let dead = |tag: &Tag| (b'T', raw::blob(&tombstone(*tag, 100)));
        let rows = self.carried.iter().map(row).chain(self.tombstones.iter().map(dead));
        let rows = (0..)
            .zip(rows)
            .map(|(slot, (kind, blob))| FileRecord::Row(kind, slot, blob));
        let records: Vec<FileRecord> = [FileRecord::NextSlot(9)].into_iter().chain(rows).collect();
        Call::Load {
            file: encode_file(&records),
        }
    }

    /// The rows that would be offered if no tag were tombstoned, those of them that are, and an own row among the rows.
    fn wanted(&self, own: Option<(Tag, u8)>) -> (usize, usize) {
        let rows = own.iter().chain(&self.carried);
        let free = rows.filter(|(tag, copies)| *copies > 1 && !self.listed.contains(&array(tag, 0)));
        let offered = free.clone().filter(|(tag, _)| !self.tombstones.contains(tag));
        (offered.count(), free.count())
    }

    /// What comes of it.
    fn ended(&self, bench: &mut Bench) -> (usize, usize) {
        let (areas, exchange, peer) = (bench.areas, 0, VERIFIED);
        let inventory = |prefixes: &[Prefix]| Call::Inventory {
            areas,
            window: Vec::new().into(),
            exchange,
            peer,
            prefixes: prefixes.concat().into(),
        };
        let mut calls = vec![self.file(), Call::FreshExchange { areas, exchange, peer }];
        calls.extend((!self.listed.is_empty()).then(|| inventory(&self.listed)));
        for call in calls {
            assert_eq!(bench.call(call), Answer::nothing(), "what comes before the end");
        }
        match bench.call(inventory(&[])) {
            Answer::Done { replies, searched, .. } => {
                let offers = replies.iter().filter(|reply| matches!(reply, Reply::Envelope(_)));
                (offers.count(), searched)
            }
            other => panic!("{other:?}"),
        }
    }
}

/// With no own row; with one of another contact, of 1 and of 2 copies; with one for the peer. Carried rows and tombstones are of its tag, of
/// another tag of its prefix, and of another prefix.
pub fn counts() -> Outcome {
    let mine = raw::route_tag(&[9; 32], b'I', 2, MESSAGE);
    let mut near = mine;
    near[15] ^= 1;
    let cases = cases(&[mine, near, tag(9)]);
    for own in [None, Some((UNVERIFIED, 1)), Some((UNVERIFIED, 2)), Some((VERIFIED, 2))] {
        let mut bench = Bench::new(ROOM);
        if let Some((contact, copies)) = own {
            bench.call(Call::Setting {
                enabled: true,
                copies,
                lifetime: LIFETIME,
            });
            let made = bench.call(bench.own_call(contact, MESSAGE, 48));
            assert!(matches!(made, Answer::Own(row) if row.tag == mine), "the own row");
        }
        let to_show = own.filter(|(contact, _)| *contact != VERIFIED);
        let to_show = to_show.map(|(_, copies)| (mine, copies));
        for case in &cases {
            same(case.ended(&mut bench), case.wanted(to_show))?;
        }
    }
    Ok(())
}

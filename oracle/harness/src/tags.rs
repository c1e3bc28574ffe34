//! The library's `route_tag`, `delivered` and `commitment` beside the source's, and wrong ones, each of which must be told apart.

use crate::generate::Rng;
use library::Tags;
use post::Tag;
use reference::raw;
use std::process::ExitCode;

const DONE: u8 = 0;
/// What a direction meets that is neither `I` nor `R`.
const WRONG_DIRECTION: u8 = 12;

/// The ends of each length that an index has in seven bits a byte, and those of four bytes.
const INDICES: [u32; 14] = [
    0,
    1,
    (1 << 7) - 1,
    1 << 7,
    (1 << 14) - 1,
    1 << 14,
    (1 << 21) - 1,
    1 << 21,
    (1 << 28) - 1,
    1 << 28,
    (1 << 28) + 1,
    1 << 31,
    u32::MAX - 1,
    u32::MAX,
];

/// What a tag is made of. Any direction byte can stand here.
struct Route {
    key: [u8; 32],
    dir: u8,
    generation: u8,
    index: u32,
}

impl Route {
    /// The key and the generation are any; the index is an end, or any number of any length.
    fn random(rng: &mut Rng, dir: u8) -> Self {
        let any = (rng.next() >> rng.between(32, 63)) as u32;
        Self {
            key: rng.bytes(),
            dir,
            generation: rng.next() as u8,
            index: if rng.percent(50) { rng.pick(&INDICES) } else { any },
        }
    }

    /// The number that a call answers and the area afterwards, which was `area`.
    fn expected(&self, area: &Tag) -> (u8, Tag) {
        match self.dir {
            b'I' | b'R' => (DONE, raw::route_tag(&self.key, self.dir, self.generation, self.index)),
            _ => (WRONG_DIRECTION, *area),
        }
    }
}

/// Ways in which the library's calls could be wrong.
#[derive(Debug, Clone, Copy, PartialEq, Eq)]
enum Wrong {
    IndexBigEndian,
    IndexOfFourBytesAtMost,
    OtherDirection,
    NoGeneration,
    LabelWithoutLength,
    TakesSmallLetters,
    RefusedCallWrites,
    DeliveredUnderRoute,
    CommitmentWithoutLabel,
}

impl Wrong {
    const ALL: [Self; 9] = [
        Self::IndexBigEndian,
        Self::IndexOfFourBytesAtMost,
        Self::OtherDirection,
        Self::NoGeneration,
        Self::LabelWithoutLength,
        Self::TakesSmallLetters,
        Self::RefusedCallWrites,
        Self::DeliveredUnderRoute,
        Self::CommitmentWithoutLabel,
    ];

    /// What this variant authenticates in place of the route.
    fn message(self, route: &Route) -> Vec<u8> {
        let Route {
            dir, generation, index, ..
        } = *route;
        let index = match self {
            Self::IndexBigEndian => index.to_be_bytes().to_vec(),
            Self::IndexOfFourBytesAtMost => rules::leb128(index).into_iter().take(4).collect(),
            _ => rules::leb128(index),
        };
        let middle = match self {
            Self::OtherDirection => vec![dir ^ b'I' ^ b'R', generation],
            Self::NoGeneration => vec![dir],
            _ => vec![dir, generation],
        };
        let label = match self {
            Self::LabelWithoutLength => b"cairn-r1 route".to_vec(),
            _ => rules::labelled(b"route"),
        };
        [label, middle, index].concat()
    }
}

fn first16(bytes: &[u8]) -> [u8; 16] {
    post::array(bytes, 0)
}

/// The library, with one thing wrong or nothing.
struct Party {
    tags: Tags,
    wrong: Option<Wrong>,
}

impl Party {
    fn route_tag(&mut self, route: &Route, area: &Tag) -> Result<(u8, Tag), String> {
        let Route {
            key,
            dir,
            generation,
            index,
        } = route;
        let (said, tag) = self.tags.route_tag(key, *dir, *generation, *index, area)?;
        Ok(match self.wrong {
            None => (said, tag),
            Some(Wrong::TakesSmallLetters) if matches!(dir, b'i' | b'r') => (DONE, tag),
            Some(Wrong::RefusedCallWrites) if said != DONE => (said, [0; 16]),
            Some(_) if said != DONE => (said, tag),
            Some(wrong) => (said, first16(&hashes::hmac(key, &wrong.message(route)))),
        })
    }

    fn delivered(&mut self, key: &[u8; 32], area: &[u8; 16]) -> Result<[u8; 16], String> {
        if self.wrong == Some(Wrong::DeliveredUnderRoute) {
            let secret = hashes::hkdf(key, &[], &rules::labelled(b"route"), 16);
            return Ok(first16(&secret.expect("16 bytes")));
        }
        self.tags.delivered(key, area)
    }

    fn commitment(&mut self, secret: &[u8; 16], area: &[u8; 16]) -> Result<[u8; 16], String> {
        if self.wrong == Some(Wrong::CommitmentWithoutLabel) {
            return Ok(first16(&hashes::sha384(secret)));
        }
        self.tags.commitment(secret, area)
    }

    fn compare_route(&mut self, rng: &mut Rng, dir: u8) -> Result<(), String> {
        let (route, area) = (Route::random(rng, dir), rng.bytes());
        let (got, want) = (self.route_tag(&route, &area)?, route.expected(&area));
        let Route { generation, index, .. } = route;
        alike(
            &format!("route tag of direction {dir}, generation {generation}, index {index}"),
            got,
            want,
        )
    }

    fn compare_secrets(&mut self, rng: &mut Rng) -> Result<(), String> {
        let (key, secret, area) = (rng.bytes(), rng.bytes(), rng.bytes());
        alike("delivery secret", self.delivered(&key, &area)?, raw::delivered(&key))?;
        alike("commitment", self.commitment(&secret, &area)?, raw::commitment(&secret))
    }
}

fn alike<T: PartialEq + std::fmt::Debug>(what: &str, got: T, want: T) -> Result<(), String> {
    if got == want {
        return Ok(());
    }
    Err(format!("{what}: library {got:?}, want {want:?}"))
}

/// So many route tags, delivery secrets and commitments, and every wrong direction once.
fn compared(wrong: Option<Wrong>, count: usize) -> Result<(), String> {
    let mut rng = Rng::new(16);
    for first in [false, true] {
        let tags = Tags::new(first);
        let mut party = Party { tags, wrong };
        for _ in 0..count / 2 {
            let dir = rng.pick(b"IR");
            party.compare_route(&mut rng, dir)?;
            party.compare_secrets(&mut rng)?;
        }
        for dir in (0..=255).filter(|dir| !b"IR".contains(dir)) {
            party.compare_route(&mut rng, dir)?;
        }
    }
    Ok(())
}

/// `tags COUNT`
pub fn main(arguments: &[String]) -> Option<ExitCode> {
    let [count] = arguments else {
        return None;
    };
    let count = count.parse().ok().filter(|count| *count > 1)?;
    library::watch(16);
    let same = compared(None, count);
    match &same {
        Ok(()) => {
            println!(
                "{count} route tags, delivery secrets and commitments each, and 254 wrong directions: 0 differences"
            );
        }
        Err(what) => println!("first difference: {what}"),
    }
    let untold: Vec<Wrong> = Wrong::ALL
        .into_iter()
        .filter(|wrong| compared(Some(*wrong), count).is_ok())
        .collect();
    for wrong in &untold {
        println!("NOT told apart: tags with {wrong:?}");
    }
    let all = Wrong::ALL.len();
    println!("{} of {all} wrong tags told apart", all - untold.len());
    Some(crate::status(same.is_ok() && untold.is_empty()))
}

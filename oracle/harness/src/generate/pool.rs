//! The contacts, tags and times that a list of calls draws from. They are few, so that they meet.

use super::rng::Rng;
use post::{Dir, Tag};
use std::collections::HashMap;

/// The inputs of an own row's tag.
#[derive(Debug, Clone, Copy)]
pub struct Route {
    pub key: [u8; 32],
    pub dir: Dir,
    pub generation: u8,
    pub index: u32,
}

impl Route {
    pub fn tag(&self) -> Tag {
        rules::route_tag(&self.key, self.dir.label(), self.generation, self.index)
    }
}

pub struct Pool {
    pub contacts: Vec<u64>,
    pub tags: Vec<Tag>,
    pub routes: Vec<Route>,
    route_tags: HashMap<(u64, u8, u8, u32), Tag>,
}

const CONTACTS: [u64; 10] = [5, 6, 7, 0, u64::MAX, 1 << 32, 256, 300, 4, 1 << 63];
pub const INDICES: [u32; 9] = [0, 1, 2, 127, 128, 16_383, 16_384, 2_097_152, u32::MAX];
pub const GENERATIONS: [u8; 4] = [0, 1, 2, 255];

/// It opens no envelope.
pub const WRONG_SECRET: [u8; 16] = [0x99; 16];

/// The secret that opens an envelope of this tag, unless a call has it otherwise.
pub fn secret_of(tag: &Tag) -> [u8; 16] {
    tag.map(|byte| byte ^ 0x77)
}

/// Prefixes that differ in their first or last byte, and with each of them a few ends.
fn plain_tags(rng: &mut Rng) -> Vec<Tag> {
    let base: [u8; 8] = rng.bytes();
    let mut tags = Vec::new();
    for change in [(0, 0), (7, 1), (0, 1), (7, 2)] {
        let mut prefix = base;
        let (at, by): (usize, u8) = change;
        prefix[at] ^= by;
        for end in 0..3u8 {
            let mut tag = [end; 16];
            tag[..8].copy_from_slice(&prefix);
            tags.push(tag);
        }
    }
    tags
}

fn routes(rng: &mut Rng) -> Vec<Route> {
    (0..6)
        .map(|_| Route {
            key: reference::raw::route_key_of(rng.pick(&CONTACTS)),
            dir: rng.pick(&[Dir::I, Dir::R]),
            generation: rng.pick(&GENERATIONS),
            index: rng.pick(&INDICES),
        })
        .collect()
}

impl Pool {
    pub fn new(rng: &mut Rng) -> Self {
        let routes = routes(rng);
        let mut tags = plain_tags(rng);
        for route in &routes {
            let tag = route.tag();
            let mut near = tag;
            near[15] ^= 1;
            tags.extend([tag, near]);
        }
        Self {
            contacts: CONTACTS.to_vec(),
            tags,
            routes,
            route_tags: HashMap::new(),
        }
    }

    /// The tag that `route_tag` gives for a contact's window row.
    pub fn window_tag(&mut self, contact: u64, dir: u8, generation: u8, index: u32) -> Tag {
        let key = reference::raw::route_key_of(contact);
        let tag = || rules::route_tag(&key, dir, generation, index);
        *self
            .route_tags
            .entry((contact, dir, generation, index))
            .or_insert_with(tag)
    }
}

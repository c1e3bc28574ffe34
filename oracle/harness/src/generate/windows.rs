//! Window areas, and the inputs of the window call.

use super::Generator;
use super::pool::{GENERATIONS, INDICES};
use post::{
    Bytes, Call, ChainRow, Exchange, SkippedRow, State, Tag, WindowRow, encode_chains, encode_skipped, encode_window,
};

const DIRECTIONS: [u8; 2] = [b'I', b'R'];
/// The generations of the rows that go after bad and after tombstoned tags; other rows have none of these.
const AFTER_BAD: u8 = 4;
const AFTER_TOMBSTONED: u8 = 5;
/// So many of an exchange's listed prefixes are of tags that calls have.
const FEW: usize = 8;

/// The tag's prefix is among the first that the exchange has listed.
fn lists(open: &Exchange, tag: &Tag) -> bool {
    open.listed.iter().take(FEW).any(|prefix| tag.starts_with(prefix))
}

impl Generator {
    fn window_row(&mut self, state: &State) -> WindowRow {
        let contact = if self.rng.percent(3) {
            self.contact()
        } else {
            self.known(state)
        };
        let dir = self.rng.pick(&DIRECTIONS);
        let generation = self.rng.pick(&GENERATIONS);
        let index = self.rng.pick(&INDICES);
        let tag = if self.rng.percent(50) {
            self.pool.window_tag(contact, dir, generation, index)
        } else {
            self.tag(state)
        };
        WindowRow {
            contact,
            dir,
            generation,
            index,
            tag,
        }
    }

    /// As many rows of one contact, or of two, as the source can have, with the tags of `route_tag`.
    fn long_window(&mut self, state: &State) -> Vec<WindowRow> {
        let mut rows = Vec::new();
        for _ in 0..self.rng.between(1, 2) {
            let contact = self.known(state);
            for index in 0..self.rng.pick(&[499, 500]) {
                rows.push(WindowRow {
                    contact,
                    dir: b'I',
                    generation: 3,
                    index,
                    tag: self.pool.window_tag(contact, b'I', 3, index),
                });
            }
        }
        rows
    }

    /// The tag and another of its prefix, mostly, in two rows of one contact.
    fn and_another(&mut self, state: &State, tag: Tag, generation: u8) -> Vec<WindowRow> {
        let alike: Vec<Tag> = self
            .pool
            .tags
            .iter()
            .filter(|other| other[..8] == tag[..8])
            .copied()
            .collect();
        let other = self.rng.pick_or(&alike, tag);
        let row = WindowRow {
            contact: self.known(state),
            dir: self.rng.pick(&DIRECTIONS),
            generation,
            index: 0,
            tag,
        };
        vec![
            row,
            WindowRow {
                index: 1,
                tag: other,
                ..row
            },
        ]
    }

    /// A bad tag, mostly one whose prefix its peer has listed.
    fn bad_and_another(&mut self, state: &State) -> Vec<WindowRow> {
        let listed = |(peer, tag): &&(u64, Tag)| {
            let mut open = state.exchanges.iter().filter(|open| open.peer == Some(*peer));
            open.any(|open| lists(open, tag))
        };
        let bad: Vec<Tag> = state.bad.iter().map(|(_, tag)| *tag).collect();
        let wanted: Vec<Tag> = state.bad.iter().filter(listed).map(|(_, tag)| *tag).collect();
        let any = self.rng.pick_or(&bad, self.pool.tags[0]);
        let tag = if self.rng.percent(70) {
            self.rng.pick_or(&wanted, any)
        } else {
            any
        };
        self.and_another(state, tag, AFTER_BAD)
    }

    /// A tombstoned tag, mostly one whose prefix is listed or that is bad.
    fn tombstoned_and_another(&mut self, state: &State) -> Vec<WindowRow> {
        let mut tags: Vec<Tag> = state.tombstones().map(|row| *row.held.tag()).collect();
        let listed = |tag: &Tag| state.exchanges.iter().any(|open| lists(open, tag));
        let is_bad = |tag: &Tag| state.bad.iter().any(|(_, bad)| bad == tag);
        let wanted: &dyn Fn(&Tag) -> bool = match self.rng.below(8) {
            0..4 => &listed,
            4..6 => &is_bad,
            6 => &|tag| listed(tag) && is_bad(tag),
            _ => &|_| true,
        };
        if tags.iter().any(wanted) {
            tags.retain(wanted);
        }
        let tag = self.rng.pick_or(&tags, self.pool.tags[0]);
        self.and_another(state, tag, AFTER_TOMBSTONED)
    }

    fn damage_window(&mut self, rows: &mut [WindowRow]) {
        let count = rows.len();
        if count == 0 {
            return;
        }
        let (one, two) = (self.rng.below(count), self.rng.below(count));
        match self.rng.below(3) {
            0 => rows.swap(one, two),
            1 => rows[one] = rows[two],
            _ => rows[one].dir = self.rng.pick(b"JHQSir\0\xff"),
        }
    }

    pub(super) fn window_area(&mut self, state: &State) -> Bytes {
        let count = self.rng.pick(&[0, 0, 1, 2, 3, 5, 8]);
        let mut rows: Vec<WindowRow> = (0..count).map(|_| self.window_row(state)).collect();
        if self.rng.percent(15) {
            rows.extend(self.bad_and_another(state));
        }
        if self.rng.percent(20) {
            rows.extend(self.tombstoned_and_another(state));
        }
        if self.rng.below(400) == 0 {
            rows = self.long_window(state);
        }
        rows.sort_by_key(WindowRow::key);
        rows.dedup_by_key(|row| row.key());
        if self.rng.percent(4) {
            self.damage_window(&mut rows);
        }
        self.last_window = rows.clone();
        let mut area = encode_window(&rows);
        self.cut_or_grow(&mut area);
        area
    }

    /// Seldom, an area that is not whole rows.
    pub(super) fn cut_or_grow(&mut self, area: &mut Bytes) {
        if self.rng.percent(2) {
            area.push(0);
        } else if self.rng.percent(2) {
            area.pop();
        }
    }

    fn skipped_count(&mut self) -> usize {
        match self.rng.below(10) {
            0..4 => self.rng.below(6),
            4..8 => self.rng.between(495, 500),
            8 => self.rng.below(501),
            _ => self.rng.between(500, 502),
        }
    }

    fn chain_next(&mut self) -> u64 {
        let end = 1u64 << 32;
        match self.rng.below(8) {
            0..3 => self.rng.below(9) as u64,
            3..5 => end - self.rng.below(6) as u64,
            5 => end - self.rng.below(600) as u64,
            6 => self.rng.next() % end,
            _ => self.rng.pick(&[end, end + 1, u64::MAX, u64::MAX - 500, end + 600]),
        }
    }

    pub(super) fn window_call(&mut self) -> Call {
        let direction = |generator: &mut Self| {
            let wrong = generator.rng.below(200) == 0;
            if wrong {
                generator.rng.pick(b"JHri\0")
            } else {
                generator.rng.pick(&DIRECTIONS)
            }
        };
        let mut skipped: Vec<SkippedRow> = Vec::new();
        let usual = self.rng.pick(&DIRECTIONS);
        for place in 0..self.skipped_count() {
            let few = place < 3;
            skipped.push(SkippedRow {
                dir: if few { direction(self) } else { usual },
                generation: place as u8,
                index: if few { self.rng.pick(&INDICES) } else { place as u32 },
            });
        }
        let mut chains = Vec::new();
        for _ in 0..self.rng.pick(&[0, 1, 1, 2, 3, 5]) {
            chains.push(ChainRow {
                dir: direction(self),
                generation: self.rng.pick(&GENERATIONS),
                next: self.chain_next(),
            });
        }
        let (mut skipped, mut chains) = (encode_skipped(&skipped), encode_chains(&chains));
        self.cut_or_grow(&mut skipped);
        self.cut_or_grow(&mut chains);
        Call::Window {
            areas: self.areas(3_000),
            skipped,
            chains,
        }
    }
}

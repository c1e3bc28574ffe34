//! Request Two: the fetches that are lost, from the window, the listed prefixes, the bad tags and the tombstones before a call.

use post::{Call, Prefix, State, Tag, WindowRow};

/// An empty inventory, as it met the post.
pub struct Ending<'a> {
    state: &'a State,
    peer: u64,
    pub listed: &'a [Prefix],
    /// In the order of their keys.
    rows: Vec<WindowRow>,
}

impl<'a> Ending<'a> {
    /// If the call is an empty inventory; its answer says whether it was refused or malformed.
    pub fn of(before: &'a State, call: &Call) -> Option<Self> {
        let Call::Inventory {
            window,
            exchange,
            peer,
            prefixes,
            ..
        } = call
        else {
            return None;
        };
        let mut rows: Vec<WindowRow> = window.chunks_exact(WindowRow::WIDTH).map(WindowRow::read).collect();
        rows.sort_by_key(WindowRow::key);
        prefixes.is_empty().then_some(Self {
            state: before,
            peer: *peer,
            listed: &before.exchanges[*exchange].listed,
            rows,
        })
    }

    /// The tags of the window rows that begin with a prefix.
    pub fn met(&self, prefix: &Prefix) -> Vec<&Tag> {
        let rows = self.rows.iter().filter(|row| row.tag[..8] == prefix[..]);
        rows.map(|row| &row.tag).collect()
    }

    pub fn is_bad(&self, tag: &Tag) -> bool {
        self.state.bad.contains(&(self.peer, *tag))
    }

    pub fn is_tombstoned(&self, tag: &Tag) -> bool {
        self.state.tombstones().any(|row| row.held.tag() == tag)
    }

    /// The source as it lies fetches the tag for the prefix, and it is tombstoned.
    pub fn loses(&self, prefix: &Prefix) -> Option<&Tag> {
        let first = *self.met(prefix).first()?;
        (!self.is_bad(first) && self.is_tombstoned(first)).then_some(first)
    }

    /// The lost fetches, in listed order, repeats included.
    pub fn lost(&self) -> Vec<&Tag> {
        self.listed.iter().filter_map(|prefix| self.loses(prefix)).collect()
    }

    /// What the source as it lies fetches, in listed order, and whether that fetch is lost.
    pub fn fetches_before(&self) -> Vec<(Tag, bool)> {
        let mut fetches = Vec::new();
        for prefix in self.listed {
            if let Some(first) = self.met(prefix).first()
                && !self.is_bad(first)
            {
                fetches.push((**first, self.is_tombstoned(first)));
            }
        }
        fetches
    }
}

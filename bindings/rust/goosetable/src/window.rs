//! The keys of messages that are still awaited.

use crate::{
    ContactId, Direction, MessageKey, Refusal, Tag,
    areas::Rows,
    calls,
    keys::route_tag,
    rows::{Fields, Typed},
};
use alloc::vec::Vec;
use core::{error, fmt};
use goosetable_sys::{KEY_ROW, KEYS, KeyRow, WINDOW_ROW};

/// A message that is awaited, and the tag that its envelope would have.
#[derive(Clone, Copy, Debug, PartialEq, Eq)]
pub struct WindowRow {
    /// Whose message.
    pub contact: ContactId,
    /// Which message.
    pub key: MessageKey,
    /// Its route tag.
    pub tag: Tag,
}

impl WindowRow {
    fn read(row: &[u8; WINDOW_ROW]) -> WindowRow {
        let mut fields = Fields(row);
        WindowRow {
            contact: fields.contact(),
            key: fields.message_key(),
            tag: fields.tag(),
        }
    }

    fn to_bytes(self) -> [u8; WINDOW_ROW] {
        let mut bytes = [0; WINDOW_ROW];
        bytes[..8].copy_from_slice(&self.contact.0.to_be_bytes());
        bytes[8..14].copy_from_slice(&key_bytes(self.key));
        bytes[14..].copy_from_slice(&self.tag.0);
        bytes
    }
}

/// A key that a window would have twice.
#[derive(Clone, Copy, Debug, PartialEq, Eq)]
#[non_exhaustive]
pub struct KeyTwice {
    /// Whose message.
    pub contact: ContactId,
    /// Which message.
    pub key: MessageKey,
}

impl fmt::Display for KeyTwice {
    fn fmt(&self, f: &mut fmt::Formatter<'_>) -> fmt::Result {
        let KeyTwice { contact, key } = self;
        write!(
            f,
            "the window has this key already: contact {contact}, direction {}, generation {}, index {}",
            key.direction, key.generation, key.index
        )
    }
}

impl error::Error for KeyTwice {}

/// All messages that are awaited, of all contacts. Rows are pushed in any order and stand sorted by contact,
/// direction, generation and index, each key once, as calls ask for them. Every contact of a row must be known to
/// the post: else calls are refused with [`Refusal::UnknownContact`].
///
/// ```
/// use goosetable::{Chain, ContactId, Direction, Window, window};
///
/// # fn main() -> Result<(), Box<dyn std::error::Error>> {
/// let (crew, route_key) = (ContactId(5), [0x44; 32]);
/// let chain = Chain { direction: Direction::Initiator, generation: 0, next: 7 };
/// let mut awaited = Window::EMPTY;
/// for key in window(&[], &[chain])? {
///     awaited.push_route(crew, &route_key, key)?;
/// }
/// assert_eq!(awaited.len(), 500);
/// let first = awaited.rows().next().ok_or("no row")?;
/// assert_eq!((first.key.index, awaited.row_of(first.tag)), (7, Some(first)));
/// # Ok(())
/// # }
/// ```
#[derive(Clone, Default, PartialEq, Eq)]
pub struct Window {
    rows: Vec<[u8; WINDOW_ROW]>,
}

impl Window {
    /// The window of a post that awaits nothing, or only carries.
    pub const EMPTY: Window = Window { rows: Vec::new() };

    /// The window of some rows, which may come in any order.
    ///
    /// # Errors
    ///
    /// Two rows have one key.
    pub fn from_rows(rows: impl IntoIterator<Item = WindowRow>) -> Result<Window, KeyTwice> {
        let mut rows: Vec<_> = rows.into_iter().map(WindowRow::to_bytes).collect();
        rows.sort_unstable();
        let window = Window { rows };
        match window.key_twice() {
            Some(twice) => Err(twice),
            None => Ok(window),
        }
    }

    /// Puts a row in its place.
    ///
    /// # Errors
    ///
    /// The key is there already; the window stays as it is.
    pub fn push(&mut self, row: WindowRow) -> Result<(), KeyTwice> {
        let at = self.place(row.contact, row.key)?;
        self.rows.insert(at, row.to_bytes());
        Ok(())
    }

    /// Puts the row of a key in its place, with the tag that the contact's route key gives it.
    ///
    /// # Errors
    ///
    /// The key is there already; the window stays as it is.
    pub fn push_route(
        &mut self,
        contact: ContactId,
        route_key: &[u8; 32],
        key: MessageKey,
    ) -> Result<(), KeyTwice> {
        let at = self.place(contact, key)?;
        let tag = route_tag(route_key, key);
        let row = WindowRow { contact, key, tag };
        self.rows.insert(at, row.to_bytes());
        Ok(())
    }

    /// The rows in their order.
    pub fn rows(&self) -> impl ExactSizeIterator<Item = WindowRow> + DoubleEndedIterator + Clone {
        self.sorted()
    }

    /// The first row with a tag: the one that [`Received::Ours`](crate::Received::Ours) speaks of.
    pub fn row_of(&self, tag: Tag) -> Option<WindowRow> {
        self.sorted().find(|row| row.tag == tag)
    }

    /// How many rows it has.
    pub fn len(&self) -> usize {
        self.rows.len()
    }

    /// Is nothing awaited?
    pub fn is_empty(&self) -> bool {
        self.rows.is_empty()
    }

    fn sorted(&self) -> impl Rows<WindowRow> {
        self.rows.iter().map(WindowRow::read)
    }

    /// The first key that two rows have.
    fn key_twice(&self) -> Option<KeyTwice> {
        let mut rows = self.sorted().zip(self.sorted().skip(1));
        let (row, _) = rows.find(|(a, b)| (a.contact, a.key) == (b.contact, b.key))?;
        let WindowRow { contact, key, .. } = row;
        Some(KeyTwice { contact, key })
    }

    /// Where a key belongs.
    fn place(&self, contact: ContactId, key: MessageKey) -> Result<usize, KeyTwice> {
        let key_of = |row: &[u8; WINDOW_ROW]| {
            let row = WindowRow::read(row);
            (row.contact, row.key)
        };
        match self.rows.binary_search_by_key(&(contact, key), key_of) {
            Ok(_) => Err(KeyTwice { contact, key }),
            Err(place) => Ok(place),
        }
    }

    pub(crate) fn bytes(&self) -> &[u8] {
        self.rows.as_flattened()
    }
}

impl fmt::Debug for Window {
    fn fmt(&self, f: &mut fmt::Formatter<'_>) -> fmt::Result {
        write!(f, "Window({} rows)", self.rows.len())
    }
}

/// A message chain of which the next key is known.
#[derive(Clone, Copy, Debug, PartialEq, Eq)]
pub struct Chain {
    /// Whose chain it is.
    pub direction: Direction,
    /// Which of that side's chains.
    pub generation: u8,
    /// The index of the next message; 2^32 at the end of the chain.
    pub next: u64,
}

fn key_bytes(key: MessageKey) -> [u8; KEY_ROW] {
    let row = KeyRow {
        direction: key.direction.label(),
        generation: key.generation,
        index: key.index,
    };
    row.bytes()
}

fn push_chain(bytes: &mut Vec<u8>, chain: &Chain) {
    bytes.extend([chain.direction.label(), chain.generation]);
    bytes.extend(chain.next.to_be_bytes());
}

/// The keys of one contact that a receiver could still derive: the skipped ones, then those of the chains
/// from the last chain to the first, 500 at most. In this order they need not rise, and may be pushed to a
/// [`Window`] as they come; a skipped key that a chain lists too is refused there the second time.
///
/// # Errors
///
/// - 12 [`WindowRows`](Refusal::WindowRows): over 500 skipped keys, or a chain's next above 2^32.
pub fn window(skipped: &[MessageKey], chains: &[Chain]) -> Result<Vec<MessageKey>, Refusal> {
    let skipped: Vec<_> = skipped.iter().map(|key| key_bytes(*key)).collect();
    let mut chain_rows = Vec::new();
    chains
        .iter()
        .for_each(|chain| push_chain(&mut chain_rows, chain));
    let mut keys = [0; KEYS];
    let listed = calls::window(skipped.as_flattened(), &chain_rows, &mut keys)?.length;
    let (rows, _) = keys.as_chunks::<KEY_ROW>();
    Ok(rows[..listed]
        .iter()
        .map(|row| Fields(row).message_key())
        .collect())
}

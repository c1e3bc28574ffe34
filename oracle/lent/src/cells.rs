//! How areas that no call left are read. The cells of ciphertexts: which of them count, what lies in one, and how a reply names one.
//! Held rows of one slot: which comes first on a page. Tombstone rows: which of them stop a fetch, and which goes where one is added. Rows to
//! offer: which of them are counted. Carried rows with 0 copies: whether they are saved, and loaded.

use crate::rows::{Carried, Tombstone, table};

pub const CELL: usize = 2_064;

/// So many cells of each kind count.
pub const COUNTED: u16 = 256;

/// The cell in the reply of a row whose cell does not count: the row has no ciphertext.
pub const NO_CELL: u16 = 65_535;

/// How many cells of an area count.
pub fn cell_count(cells: &[u8]) -> usize {
    (cells.len() / CELL).min(COUNTED.into())
}

/// Which cells are read as cells that count: the first so many, for each thing that is read of them; whether a tombstone comes before
/// a carried row of its slot; whether a tombstone behind the count stops a fetch; and, of the rows for which the tombstones are searched,
/// whether one behind the count is counted, and which by their cell; where a tombstone is added, which goes (`Room`); and what becomes of carried
/// rows with 0 copies in a file (`Empty`).
#[derive(Debug, Clone, Copy, PartialEq, Eq)]
pub struct Reading {
    ciphertexts: u16,
    own_replies: u16,
    carried_replies: u16,
    pub(crate) tombstones_first: bool,
    stops_behind_the_count: bool,
    searches_behind_the_count: bool,
    searched_cells: u16,
    room: Room,
    empty: Empty,
}

/// How room is made for a tombstone. It is right that the rows which fit are held against the limit, that the first row of least expiry goes,
/// and that the rows stand as they stood, with a turned one among them.
#[derive(Debug, Clone, Copy, PartialEq, Eq)]
enum Room {
    Right,
    LimitOfTheSaidCount,
    LowestSlotGoes,
    LastMinuteStays,
    SortedBySlot,
}

/// What becomes of a carried row with 0 copies in a file. It is right that it is saved and loaded as any other.
#[derive(Debug, Clone, Copy, PartialEq, Eq)]
enum Empty {
    Right,
    NotSaved,
    NotLoaded,
}

fn replied(count: u16, first: u16, cell: u16) -> u16 {
    if cell < count {
        first.wrapping_add(cell)
    } else {
        NO_CELL
    }
}

impl Reading {
    pub const RIGHT: Self = Self::of(COUNTED);

    const fn of(count: u16) -> Self {
        Self {
            ciphertexts: count,
            own_replies: count,
            carried_replies: count,
            tombstones_first: false,
            stops_behind_the_count: false,
            searches_behind_the_count: false,
            searched_cells: u16::MAX,
            room: Room::Right,
            empty: Empty::Right,
        }
    }

    /// The number that is held against the limit of tombstones: of the rows that fit.
    pub(crate) fn limited(self, rows: usize, said: usize) -> usize {
        if self.room == Room::LimitOfTheSaidCount {
            said
        } else {
            rows
        }
    }

    /// The place of the tombstone that goes: the first of least expiry.
    pub(crate) fn goes(self, rows: &[Tombstone]) -> Option<usize> {
        let least = rows.iter().map(|row| row.expiry).min()?;
        let mut equals = (0..rows.len()).filter(|place| rows[*place].expiry == least);
        match self.room {
            Room::LowestSlotGoes => equals.min_by_key(|place| rows[*place].slot),
            Room::LastMinuteStays if least == u32::MAX => None,
            _ => equals.next(),
        }
    }

    /// The tombstones with a turned row among them stay as they stand.
    pub(crate) fn placed(self, rows: &mut [Tombstone]) {
        if self.room == Room::SortedBySlot {
            rows.sort_by_key(|row| row.slot);
        }
    }

    /// A carried row is saved whatever its copies.
    pub(crate) fn is_saved(self, copies: u8) -> bool {
        copies > 0 || self.empty != Empty::NotSaved
    }

    /// A file is loaded whatever the copies of its carried rows.
    pub(crate) fn is_loaded(self, copies: u8) -> bool {
        copies > 0 || self.empty != Empty::NotLoaded
    }

    /// The ciphertext of a row: what lies inside its cell and the area, if the cell counts.
    pub fn ciphertext(self, cells: &[u8], cell: u16, len: u16) -> &[u8] {
        let at = (usize::from(cell) * CELL).min(cells.len());
        let len = if cell < self.ciphertexts { len.into() } else { 0 };
        &cells[at..at + CELL.min(len).min(cells.len() - at)]
    }

    /// The tombstones that stop a fetch: so many rows of the area as count.
    pub(crate) fn stopping(self, area: &[u8], count: usize) -> Vec<Tombstone> {
        table(area, if self.stops_behind_the_count { usize::MAX } else { count })
    }

    /// The tombstones are searched for a row whatever its cell.
    pub(crate) fn is_searched(self, cell: u16) -> bool {
        cell <= self.searched_cells
    }

    /// The carried rows behind the count for which the tombstones are searched: none.
    pub(crate) fn searched_behind(self, area: &[u8], count: usize) -> Vec<Carried> {
        if self.searches_behind_the_count {
            table(area, usize::MAX).split_off(count)
        } else {
            Vec::new()
        }
    }

    /// The cell of an own row as a reply says it.
    pub fn own_reply(self, cell: u16) -> u16 {
        replied(self.own_replies, 0, cell)
    }

    /// The cell of a carried row as a reply says it.
    pub fn carried_reply(self, cell: u16) -> u16 {
        replied(self.carried_replies, COUNTED, cell)
    }
}

/// The ways in which such areas can be read wrongly.
#[derive(Debug, Clone, Copy, PartialEq, Eq)]
pub enum Wrong {
    Counts255Cells,
    Counts257Cells,
    AnyCellHasACiphertext,
    OwnReplyNamesAnyCell,
    CarriedReplyWraps,
    TombstoneFirst,
    StopsBehindTheCount,
    SearchesBehindTheCount,
    SearchesForCountedCells,
    LimitOfTheSaidCount,
    LowestSlotGoes,
    LastMinuteStays,
    TurnSorts,
    SavesNoRowWithoutCopies,
    RefusesRowsWithoutCopies,
}

impl Wrong {
    pub const ALL: [Self; 15] = [
        Self::Counts255Cells,
        Self::Counts257Cells,
        Self::AnyCellHasACiphertext,
        Self::OwnReplyNamesAnyCell,
        Self::CarriedReplyWraps,
        Self::TombstoneFirst,
        Self::StopsBehindTheCount,
        Self::SearchesBehindTheCount,
        Self::SearchesForCountedCells,
        Self::LimitOfTheSaidCount,
        Self::LowestSlotGoes,
        Self::LastMinuteStays,
        Self::TurnSorts,
        Self::SavesNoRowWithoutCopies,
        Self::RefusesRowsWithoutCopies,
    ];

    pub fn says(self) -> &'static str {
        match self {
            Self::Counts255Cells => "cell 255 does not count",
            Self::Counts257Cells => "cell 256 counts",
            Self::AnyCellHasACiphertext => "a cell of 256 or more has a ciphertext",
            Self::OwnReplyNamesAnyCell => "the reply of an own row has a cell of 256 or more",
            Self::CarriedReplyWraps => "the reply of a carried row has 256 and its cell, modulo 2^16",
            Self::TombstoneFirst => "on a page a tombstone comes before a carried row of its slot",
            Self::StopsBehindTheCount => "a tombstone behind the count stops a fetch",
            Self::SearchesBehindTheCount => "a carried row behind the count is counted as searched",
            Self::SearchesForCountedCells => "a row of cell 256 or more is not counted as searched",
            Self::LimitOfTheSaidCount => "a tombstone goes where the count says 1,024 or more, though fewer rows fit",
            Self::LowestSlotGoes => "of equal expiries the lowest slot goes, wherever it stands",
            Self::LastMinuteStays => "none goes where all expiries are 2^32 - 1",
            Self::TurnSorts => "the tombstones are sorted by slot where a row turns",
            Self::SavesNoRowWithoutCopies => "a save leaves out carried rows with 0 copies",
            Self::RefusesRowsWithoutCopies => "a load refuses a file with a carried row of 0 copies",
        }
    }

    pub fn reading(self) -> Reading {
        let mut reading = Reading::RIGHT;
        let any = u16::MAX;
        match self {
            Self::Counts255Cells => reading = Reading::of(COUNTED - 1),
            Self::Counts257Cells => reading = Reading::of(COUNTED + 1),
            Self::AnyCellHasACiphertext => reading.ciphertexts = any,
            Self::OwnReplyNamesAnyCell => reading.own_replies = any,
            Self::CarriedReplyWraps => reading.carried_replies = any,
            Self::TombstoneFirst => reading.tombstones_first = true,
            Self::StopsBehindTheCount => reading.stops_behind_the_count = true,
            Self::SearchesBehindTheCount => reading.searches_behind_the_count = true,
            Self::SearchesForCountedCells => reading.searched_cells = COUNTED - 1,
            Self::LimitOfTheSaidCount => reading.room = Room::LimitOfTheSaidCount,
            Self::LowestSlotGoes => reading.room = Room::LowestSlotGoes,
            Self::LastMinuteStays => reading.room = Room::LastMinuteStays,
            Self::TurnSorts => reading.room = Room::SortedBySlot,
            Self::SavesNoRowWithoutCopies => reading.empty = Empty::NotSaved,
            Self::RefusesRowsWithoutCopies => reading.empty = Empty::NotLoaded,
        }
        reading
    }
}

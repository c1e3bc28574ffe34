//! Why a call is refused.

use core::{error, fmt};

/// Why a call is refused, by document 01's number. A refused call has changed nothing.
///
/// Later versions know more numbers. What is [`Other`](Refusal::Other) today may have a name then: to meet such
/// a number in both, ask for [`number`](Refusal::number).
#[derive(Clone, Copy, Debug, PartialEq, Eq, Hash, PartialOrd, Ord)]
#[non_exhaustive]
pub enum Refusal {
    /// 1: an area for an answer is too short. A [`Post`](crate::Post) has its own, so that only the area for
    /// [`Post::save`](crate::Post::save) can be.
    ShortArea,
    /// 2: the contact, or one in a window row, isn't known.
    UnknownContact,
    /// 3: the exchange was opened for another contact or for none.
    WrongExchange,
    /// 4: a row would be added and its cells are all used.
    NoCell,
    /// 5: a tombstone would be added and, after any deletion, all R rows are used. With 1,024 rows or more it comes of
    /// no call but [`Post::load`](crate::Post::load).
    NoTombstoneRow,
    /// 6: a new slot is needed and the next slot is 2^64 − 1.
    NoSlot,
    /// 7: the setting is outside its range.
    Configuration,
    /// 8: the saved file is not one, or does not fit this post's contacts.
    SavedFile,
    /// 9: a new bad tag and no row left.
    NoBadTagRow,
    /// 10: the contact has an own row with this message number.
    MessageNumberTaken,
    /// 11: no own ciphertext has this length.
    OwnLength,
    /// 12: over 500 skipped keys, or a chain's next above 2^32. A [`Window`](crate::Window) is always in order.
    WindowRows,
    /// 13: a 257th contact.
    LogRecord,
    /// A number that this version does not know. Up to 127 it is a refusal like the others, of a later version.
    /// Above 131 no library says it: then nothing is known of what changed, and a host starts again from what
    /// is stored.
    #[non_exhaustive]
    Other {
        /// The number.
        number: u8,
    },
}

impl Refusal {
    /// Every refusal that this version knows, by its number from 1 on.
    pub const ALL: &'static [Refusal] = &[
        Refusal::ShortArea,
        Refusal::UnknownContact,
        Refusal::WrongExchange,
        Refusal::NoCell,
        Refusal::NoTombstoneRow,
        Refusal::NoSlot,
        Refusal::Configuration,
        Refusal::SavedFile,
        Refusal::NoBadTagRow,
        Refusal::MessageNumberTaken,
        Refusal::OwnLength,
        Refusal::WindowRows,
        Refusal::LogRecord,
    ];

    /// Document 01's number.
    pub const fn number(self) -> u8 {
        match self {
            Refusal::ShortArea => 1,
            Refusal::UnknownContact => 2,
            Refusal::WrongExchange => 3,
            Refusal::NoCell => 4,
            Refusal::NoTombstoneRow => 5,
            Refusal::NoSlot => 6,
            Refusal::Configuration => 7,
            Refusal::SavedFile => 8,
            Refusal::NoBadTagRow => 9,
            Refusal::MessageNumberTaken => 10,
            Refusal::OwnLength => 11,
            Refusal::WindowRows => 12,
            Refusal::LogRecord => 13,
            Refusal::Other { number } => number,
        }
    }

    /// The refusal with a number from 1 to 127; no other number is one.
    pub fn from_number(number: u8) -> Option<Refusal> {
        matches!(number, 1..=127).then(|| Refusal::of(number))
    }

    /// What a number that is not an answer of its call stands for.
    pub(crate) fn of(number: u8) -> Refusal {
        Refusal::ALL
            .iter()
            .copied()
            .find(|refusal| refusal.number() == number)
            .unwrap_or(Refusal::Other { number })
    }

    /// Document 01's words.
    const fn reason(self) -> &'static str {
        match self {
            Refusal::ShortArea => {
                "the reply, exchange, action, answer, blob or file area is too short"
            }
            Refusal::UnknownContact => "the contact, or one in a window row, isn't known",
            Refusal::WrongExchange => "the exchange was opened for another contact or for none",
            Refusal::NoCell => "a row would be added and its cells are all used",
            Refusal::NoTombstoneRow => {
                "a tombstone would be added and, after any deletion, all R rows are used"
            }
            Refusal::NoSlot => "a new slot is needed and next slot is 2^64−1",
            Refusal::Configuration => "configuration outside its range",
            Refusal::SavedFile => {
                "saved file: mark, length or place of HN wrong, blob refused, slot twice or not below next slot, carried tag twice, unknown depositor, over 256 carried or 32 for one"
            }
            Refusal::NoBadTagRow => "a new bad tag and no row left",
            Refusal::MessageNumberTaken => "own row: message number already there",
            Refusal::OwnLength => {
                "own ciphertext less 16 isn't 32, 64, 128, 256, 512, 1024, 2048 or 4048"
            }
            Refusal::WindowRows => {
                "window or prefix area not whole rows; a direction not I or R; keys not rising; over 500 skipped; a next above 2^32"
            }
            Refusal::LogRecord => "code, verification or enabled, or a 257th contact",
            Refusal::Other { .. } => "a number that this version does not know",
        }
    }
}

impl fmt::Display for Refusal {
    fn fmt(&self, f: &mut fmt::Formatter<'_>) -> fmt::Result {
        write!(f, "refused {}: {}", self.number(), self.reason())
    }
}

impl error::Error for Refusal {}

//! The values that calls take and answer.

use crate::rows::{Fields, Typed};
use alloc::vec::Vec;
use core::fmt;

/// A contact's number.
#[derive(Clone, Copy, Debug, PartialEq, Eq, Hash, PartialOrd, Ord)]
pub struct ContactId(pub u64);

impl fmt::Display for ContactId {
    fn fmt(&self, f: &mut fmt::Formatter<'_>) -> fmt::Result {
        self.0.fmt(f)
    }
}

/// The number under which a held row is stored.
#[derive(Clone, Copy, Debug, PartialEq, Eq, Hash, PartialOrd, Ord)]
pub struct Slot(pub u64);

impl fmt::Display for Slot {
    fn fmt(&self, f: &mut fmt::Formatter<'_>) -> fmt::Result {
        self.0.fmt(f)
    }
}

/// The first 8 bytes of a tag, as an inventory lists it. A received list of bytes is whole prefixes if
/// `list.as_chunks()` leaves no byte over.
pub type Prefix = [u8; goosetable_sys::PREFIX];

fn hex(bytes: &[u8], f: &mut fmt::Formatter<'_>) -> fmt::Result {
    bytes.iter().try_for_each(|byte| write!(f, "{byte:02x}"))
}

macro_rules! sixteen_bytes {
    ($($(#[$doc:meta])* $name:ident;)*) => {$(
        $(#[$doc])*
        #[derive(Clone, Copy, PartialEq, Eq, Hash, PartialOrd, Ord)]
        pub struct $name(pub [u8; 16]);

        /// 32 hex digits.
        impl fmt::Display for $name {
            fn fmt(&self, f: &mut fmt::Formatter<'_>) -> fmt::Result {
                hex(&self.0, f)
            }
        }
    )*};
}

sixteen_bytes! {
    /// The route tag of an envelope.
    Tag;
    /// What an envelope says of its secret, so that a tomb can be tested.
    Commitment;
    /// What opening an envelope gives away: the proof of its delivery. Whoever has it can end the envelope, so
    /// that `Debug` does not show it.
    Secret;
}

impl fmt::Debug for Tag {
    fn fmt(&self, f: &mut fmt::Formatter<'_>) -> fmt::Result {
        write!(f, "Tag({self})")
    }
}

impl fmt::Debug for Commitment {
    fn fmt(&self, f: &mut fmt::Formatter<'_>) -> fmt::Result {
        write!(f, "Commitment({self})")
    }
}

impl fmt::Debug for Secret {
    fn fmt(&self, f: &mut fmt::Formatter<'_>) -> fmt::Result {
        f.write_str("Secret(..)")
    }
}

impl Tag {
    /// The prefix that stands for the tag in an inventory.
    pub fn prefix(&self) -> Prefix {
        let [a, b, c, d, e, f, g, h, ..] = self.0;
        [a, b, c, d, e, f, g, h]
    }
}

/// How far a contact is trusted: a verified one may leave 32 envelopes, any other 16.
#[derive(Clone, Copy, Debug, PartialEq, Eq, Hash)]
#[repr(u8)]
pub enum Verification {
    /// Never compared.
    Unverified = 0,
    /// Compared in person.
    Verified = 1,
    /// Known to be compromised.
    Compromised = 2,
}

impl Verification {
    /// The byte that stands for it.
    pub const fn code(self) -> u8 {
        self as u8
    }

    /// What a byte stands for.
    pub const fn from_code(code: u8) -> Option<Verification> {
        Some(match code {
            0 => Verification::Unverified,
            1 => Verification::Verified,
            2 => Verification::Compromised,
            _ => return None,
        })
    }
}

/// What answers an envelope.
#[derive(Clone, Copy, Debug, PartialEq, Eq, Hash)]
#[repr(u8)]
pub enum Custody {
    /// It is held from now on.
    Accepted = 0,
    /// A limit is reached.
    Full = 1,
    /// Its tag is here already.
    Duplicate = 2,
    /// This post carries nothing.
    Off = 3,
    /// No envelope that a courier takes.
    Invalid = 4,
}

impl Custody {
    /// The byte that stands for it.
    pub const fn code(self) -> u8 {
        self as u8
    }

    /// What a byte stands for.
    pub const fn from_code(code: u8) -> Option<Custody> {
        Some(match code {
            0 => Custody::Accepted,
            1 => Custody::Full,
            2 => Custody::Duplicate,
            3 => Custody::Off,
            4 => Custody::Invalid,
            _ => return None,
        })
    }
}

impl fmt::Display for Custody {
    fn fmt(&self, f: &mut fmt::Formatter<'_>) -> fmt::Result {
        f.write_str(match self {
            Custody::Accepted => "Accepted",
            Custody::Full => "Full",
            Custody::Duplicate => "Duplicate",
            Custody::Off => "Off",
            Custody::Invalid => "Invalid",
        })
    }
}

/// The direction of a message chain, after the sender's role.
#[derive(Clone, Copy, Debug, PartialEq, Eq, Hash, PartialOrd, Ord)]
#[repr(u8)]
pub enum Direction {
    /// From the initiator.
    Initiator = b'I',
    /// From the responder.
    Responder = b'R',
}

impl Direction {
    /// The byte that stands for it, `I` or `R`.
    pub const fn label(self) -> u8 {
        self as u8
    }

    /// What a byte stands for.
    pub const fn from_label(label: u8) -> Option<Direction> {
        match label {
            b'I' => Some(Direction::Initiator),
            b'R' => Some(Direction::Responder),
            _ => None,
        }
    }
}

impl fmt::Display for Direction {
    fn fmt(&self, f: &mut fmt::Formatter<'_>) -> fmt::Result {
        f.write_str(match self {
            Direction::Initiator => "I",
            Direction::Responder => "R",
        })
    }
}

/// The place of a message in its contact's chains. Keys rise by direction, generation, index.
#[derive(Clone, Copy, Debug, PartialEq, Eq, Hash, PartialOrd, Ord)]
pub struct MessageKey {
    /// Whose chain it is.
    pub direction: Direction,
    /// Which of that side's chains.
    pub generation: u8,
    /// Which message of the chain.
    pub index: u32,
}

/// What a post does with envelopes of others, and how it sends its own; by default, as in a new post, enabled, 6 copies
/// and 1,440 minutes.
#[derive(Clone, Copy, Debug, PartialEq, Eq)]
pub struct Setting {
    /// Are envelopes of others taken?
    pub enabled: bool,
    /// The most copies of an envelope, from 1 to 16.
    pub copies: u8,
    /// The longest life of an envelope in minutes, from 60 to 10,080.
    pub lifetime_min: u16,
}

impl Setting {
    /// Bytes of a setting.
    pub const SIZE: usize = 4;

    /// The bytes under which a host may store it: enabled 1, copies 1, lifetime 2.
    pub const fn to_bytes(&self) -> [u8; Setting::SIZE] {
        let [high, low] = self.lifetime_min.to_be_bytes();
        [self.enabled as u8, self.copies, high, low]
    }

    /// The setting that stored bytes are; none if the first is not 0 or 1. Whether it is in its range,
    /// [`Post::set_setting`](crate::Post::set_setting) says.
    pub const fn from_bytes(bytes: [u8; Setting::SIZE]) -> Option<Setting> {
        let [enabled @ 0..=1, copies, high, low] = bytes else {
            return None;
        };
        Some(Setting {
            enabled: enabled == 1,
            copies,
            lifetime_min: u16::from_be_bytes([high, low]),
        })
    }
}

impl Default for Setting {
    /// The setting of a new post.
    fn default() -> Setting {
        Setting {
            enabled: true,
            copies: 6,
            lifetime_min: 1440,
        }
    }
}

/// An envelope without its ciphertext.
#[derive(Clone, Copy, Debug, PartialEq, Eq)]
pub struct Header {
    /// Whose it is, to those who have the key.
    pub tag: Tag,
    /// What a tomb's secret is tested against.
    pub commitment: Commitment,
    /// The minute from which it is expired.
    pub expiry_min: u32,
    /// How many copies go with it.
    pub copies: u8,
}

impl Header {
    /// Bytes of a header on the link.
    pub const SIZE: usize = 37;

    /// The header as it is on the link: tag, commitment, expiry, copies.
    pub fn to_bytes(&self) -> [u8; Header::SIZE] {
        let mut bytes = [0; Header::SIZE];
        bytes[..16].copy_from_slice(&self.tag.0);
        bytes[16..32].copy_from_slice(&self.commitment.0);
        bytes[32..36].copy_from_slice(&self.expiry_min.to_be_bytes());
        bytes[36] = self.copies;
        bytes
    }

    /// The header that bytes from the link are.
    pub fn from_bytes(bytes: &[u8; Header::SIZE]) -> Header {
        Fields(bytes).header()
    }
}

/// An envelope.
#[derive(Clone, Copy, PartialEq, Eq)]
pub struct Envelope<'a> {
    /// All but the ciphertext.
    pub header: Header,
    /// The sealed message.
    pub ciphertext: &'a [u8],
}

impl<'a> Envelope<'a> {
    /// The record that the envelope is on the link: its header, and the ciphertext behind it.
    pub fn to_bytes(&self) -> Vec<u8> {
        [&self.header.to_bytes(), self.ciphertext].concat()
    }

    /// The envelope that a record from the link is: a header, and the ciphertext behind it. A record that is
    /// shorter than a header is none, and the peer's session is dropped.
    pub fn from_bytes(record: &'a [u8]) -> Option<Envelope<'a>> {
        let (header, ciphertext) = record.split_first_chunk()?;
        Some(Envelope {
            header: Header::from_bytes(header),
            ciphertext,
        })
    }
}

impl fmt::Debug for Envelope<'_> {
    fn fmt(&self, f: &mut fmt::Formatter<'_>) -> fmt::Result {
        f.debug_struct("Envelope")
            .field("header", &self.header)
            .field("ciphertext", &Bytes(self.ciphertext))
            .finish()
    }
}

/// Bytes of which `Debug` shows how many they are.
pub(crate) struct Bytes<'a>(pub(crate) &'a [u8]);

impl fmt::Debug for Bytes<'_> {
    fn fmt(&self, f: &mut fmt::Formatter<'_>) -> fmt::Result {
        write!(f, "{} bytes", self.0.len())
    }
}

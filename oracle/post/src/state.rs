use crate::Bytes;
use std::collections::{BTreeMap, BTreeSet};

pub type Tag = [u8; 16];
pub type Prefix = [u8; 8];

#[derive(Debug, Clone, Copy, PartialEq, Eq)]
pub enum Verification {
    Unverified,
    Verified,
    Compromised,
}

#[derive(Debug, Clone, Copy, PartialEq, Eq, PartialOrd, Ord)]
pub enum Custody {
    Accepted,
    Full,
    Duplicate,
    Off,
    Invalid,
}

impl Custody {
    pub const ALL: [Self; 5] = [Self::Accepted, Self::Full, Self::Duplicate, Self::Off, Self::Invalid];

    pub fn code(self) -> u8 {
        self as u8
    }

    pub fn of(code: u8) -> Option<Self> {
        Self::ALL.get(usize::from(code)).copied()
    }
}

#[derive(Debug, Clone, Copy, PartialEq, Eq, PartialOrd, Ord)]
pub enum Dir {
    I,
    R,
}

impl Dir {
    pub fn label(self) -> u8 {
        match self {
            Self::I => b'I',
            Self::R => b'R',
        }
    }

    pub fn of(label: u8) -> Option<Self> {
        match label {
            b'I' => Some(Self::I),
            b'R' => Some(Self::R),
            _ => None,
        }
    }
}

#[derive(Debug, Clone, PartialEq, Eq)]
pub struct Envelope {
    pub tag: Tag,
    pub commitment: [u8; 16],
    pub expiry: u32,
    pub copies: u8,
    pub ciphertext: Bytes,
}

#[derive(Debug, Clone, PartialEq, Eq)]
pub enum Held {
    Carried { depositor: u64, envelope: Envelope },
    Tombstone { tag: Tag, secret: [u8; 16], expiry: u32 },
}

impl Held {
    pub fn tag(&self) -> &Tag {
        match self {
            Self::Carried { envelope, .. } => &envelope.tag,
            Self::Tombstone { tag, .. } => tag,
        }
    }

    pub fn expiry(&self) -> u32 {
        match self {
            Self::Carried { envelope, .. } => envelope.expiry,
            Self::Tombstone { expiry, .. } => *expiry,
        }
    }

    pub fn is_carried(&self) -> bool {
        matches!(self, Self::Carried { .. })
    }
}

#[derive(Debug, Clone, PartialEq, Eq)]
pub struct HeldRow {
    pub slot: u64,
    pub held: Held,
}

#[derive(Debug, Clone, PartialEq, Eq)]
pub struct OwnRow {
    pub contact: u64,
    pub message: u32,
    pub tag: Tag,
    pub secret: [u8; 16],
    pub expiry: u32,
    pub copies: u8,
    pub renewed: bool,
    pub ciphertext: Bytes,
}

#[derive(Debug, Clone, Copy, PartialEq, Eq)]
pub struct Contact {
    pub id: u64,
    pub verification: Verification,
}

#[derive(Debug, Clone, Copy, PartialEq, Eq)]
pub struct Setting {
    pub enabled: bool,
    pub copies: u8,
    pub lifetime: u16,
}

impl Default for Setting {
    fn default() -> Self {
        Self {
            enabled: true,
            copies: 6,
            lifetime: 1440,
        }
    }
}

/// The peer's side of one exchange; opened for none at the start.
#[derive(Debug, Clone, PartialEq, Eq, Default)]
pub struct Exchange {
    pub peer: Option<u64>,
    pub complete: bool,
    pub listed: Vec<Prefix>,
    pub offered: BTreeMap<Tag, u8>,
}

/// What the lent areas of a post hold, in rows. Cells above 256 do not count.
#[derive(Debug, Clone, Copy, PartialEq, Eq)]
pub struct Sizes {
    pub carried_cells: usize,
    pub own_cells: usize,
    pub tombstone_rows: usize,
    pub bad_rows: usize,
    pub exchanges: usize,
}

impl Sizes {
    /// The drill program's: 16 cells of each kind, R = 1,024, one exchange.
    pub const DRILL: Self = Self {
        carried_cells: 16,
        own_cells: 16,
        tombstone_rows: 1024,
        bad_rows: 16,
        exchanges: 1,
    };
}

/// A post as plain lists: contacts as added, own rows by contact as added and message number,
/// held rows by slot.
#[derive(Debug, Clone, PartialEq, Eq)]
pub struct State {
    pub clock: u64,
    pub setting: Setting,
    pub contacts: Vec<Contact>,
    pub own: Vec<OwnRow>,
    pub held: Vec<HeldRow>,
    pub next_slot: u64,
    pub bad: BTreeSet<(u64, Tag)>,
    pub exchanges: Vec<Exchange>,
}

impl State {
    pub fn fresh(sizes: &Sizes) -> Self {
        Self {
            clock: 0,
            setting: Setting::default(),
            contacts: Vec::new(),
            own: Vec::new(),
            held: Vec::new(),
            next_slot: 0,
            bad: BTreeSet::new(),
            exchanges: vec![Exchange::default(); sizes.exchanges],
        }
    }

    pub fn carried(&self) -> impl Iterator<Item = (u64, u64, &Envelope)> {
        self.held.iter().filter_map(|row| match &row.held {
            Held::Carried { depositor, envelope } => Some((row.slot, *depositor, envelope)),
            Held::Tombstone { .. } => None,
        })
    }

    pub fn tombstones(&self) -> impl Iterator<Item = &HeldRow> {
        self.held.iter().filter(|row| !row.held.is_carried())
    }
}

use crate::{Bytes, Custody, Dir, Envelope, Sizes, Tag, Verification};

/// The lengths, in bytes, of the areas that number 1 speaks of. A call looks only at its own.
#[derive(Debug, Clone, Copy, PartialEq, Eq)]
pub struct Areas {
    pub replies: usize,
    pub prefixes: usize,
    pub offers: usize,
    pub actions: usize,
    /// Of inventory, window, row blob, save and page.
    pub answer: usize,
}

impl Areas {
    /// As long as document 01 asks of every call.
    pub fn enough(sizes: &Sizes) -> Self {
        Self {
            replies: 61_440,
            prefixes: 4_096,
            offers: 8_704,
            actions: 13 * (512 + sizes.tombstone_rows),
            answer: (10 + 2_122 * sizes.carried_cells + 49 * sizes.tombstone_rows).max(4_096),
        }
    }
}

/// The inputs of an own envelope.
#[derive(Debug, Clone, PartialEq, Eq)]
pub struct NewOwn {
    pub contact: u64,
    pub message: u32,
    pub route_key: [u8; 32],
    pub dir: Dir,
    pub generation: u8,
    pub index: u32,
    pub secret: [u8; 16],
    pub ciphertext: Bytes,
}

#[derive(Debug, Clone, PartialEq, Eq)]
pub enum Call {
    Contact {
        id: u64,
        verification: Verification,
    },
    Setting {
        enabled: bool,
        copies: u8,
        lifetime: u16,
    },
    Clock {
        seconds: u64,
    },
    FreshExchange {
        areas: Areas,
        exchange: usize,
        peer: u64,
    },
    Envelope {
        areas: Areas,
        window: Bytes,
        peer: u64,
        envelope: Envelope,
    },
    Inventory {
        areas: Areas,
        window: Bytes,
        exchange: usize,
        peer: u64,
        prefixes: Bytes,
    },
    Fetch {
        areas: Areas,
        peer: u64,
        tag: Tag,
    },
    CustodyCode {
        areas: Areas,
        exchange: usize,
        peer: u64,
        tag: Tag,
        code: Custody,
    },
    Tomb {
        areas: Areas,
        peer: u64,
        tag: Tag,
        secret: [u8; 16],
    },
    Opened {
        areas: Areas,
        peer: u64,
        tag: Tag,
        secret: [u8; 16],
        expiry: u32,
    },
    Failed {
        peer: u64,
        tag: Tag,
    },
    StoredTombstone {
        areas: Areas,
        tag: Tag,
        secret: [u8; 16],
        expiry: u32,
    },
    OwnEnvelope(NewOwn),
    Maintenance {
        areas: Areas,
    },
    InventoryOfOurs {
        areas: Areas,
        peer: u64,
    },
    Window {
        areas: Areas,
        skipped: Bytes,
        chains: Bytes,
    },
    RowBlob {
        areas: Areas,
        slot: u64,
    },
    RowRead {
        blob: Bytes,
    },
    Save {
        areas: Areas,
    },
    Load {
        file: Bytes,
    },
    Page {
        areas: Areas,
        number: u64,
    },
}

/// A call without its inputs.
#[derive(Debug, Clone, Copy, PartialEq, Eq, PartialOrd, Ord)]
pub enum Kind {
    Contact,
    Setting,
    Clock,
    FreshExchange,
    Envelope,
    Inventory,
    Fetch,
    CustodyCode,
    Tomb,
    Opened,
    Failed,
    StoredTombstone,
    OwnEnvelope,
    Maintenance,
    InventoryOfOurs,
    Window,
    RowBlob,
    RowRead,
    Save,
    Load,
    Page,
}

impl Kind {
    pub const ALL: [Self; 21] = [
        Self::Contact,
        Self::Setting,
        Self::Clock,
        Self::FreshExchange,
        Self::Envelope,
        Self::Inventory,
        Self::Fetch,
        Self::CustodyCode,
        Self::Tomb,
        Self::Opened,
        Self::Failed,
        Self::StoredTombstone,
        Self::OwnEnvelope,
        Self::Maintenance,
        Self::InventoryOfOurs,
        Self::Window,
        Self::RowBlob,
        Self::RowRead,
        Self::Save,
        Self::Load,
        Self::Page,
    ];

    /// False of a page: the Rust source has nothing of it, and it is judged without the source.
    pub fn is_in_source(self) -> bool {
        self != Self::Page
    }

    /// The numbers that can refuse the call, in their order.
    pub fn numbers(self) -> &'static [u8] {
        match self {
            Self::Contact => &[13],
            Self::Setting => &[7],
            Self::Clock | Self::RowRead => &[],
            Self::FreshExchange | Self::Fetch | Self::InventoryOfOurs => &[1, 2],
            Self::Envelope => &[1, 12, 2, 4, 6],
            Self::Inventory => &[1, 12, 2, 3],
            Self::CustodyCode => &[1, 2, 3],
            Self::Tomb | Self::Opened => &[1, 2, 5, 6],
            Self::Failed => &[2, 9],
            Self::StoredTombstone => &[1, 5, 6],
            Self::OwnEnvelope => &[2, 10, 11, 4],
            Self::Maintenance | Self::RowBlob | Self::Save | Self::Page => &[1],
            Self::Window => &[1, 12],
            Self::Load => &[8, 4, 5],
        }
    }
}

impl Call {
    pub fn kind(&self) -> Kind {
        match self {
            Self::Contact { .. } => Kind::Contact,
            Self::Setting { .. } => Kind::Setting,
            Self::Clock { .. } => Kind::Clock,
            Self::FreshExchange { .. } => Kind::FreshExchange,
            Self::Envelope { .. } => Kind::Envelope,
            Self::Inventory { .. } => Kind::Inventory,
            Self::Fetch { .. } => Kind::Fetch,
            Self::CustodyCode { .. } => Kind::CustodyCode,
            Self::Tomb { .. } => Kind::Tomb,
            Self::Opened { .. } => Kind::Opened,
            Self::Failed { .. } => Kind::Failed,
            Self::StoredTombstone { .. } => Kind::StoredTombstone,
            Self::OwnEnvelope(_) => Kind::OwnEnvelope,
            Self::Maintenance { .. } => Kind::Maintenance,
            Self::InventoryOfOurs { .. } => Kind::InventoryOfOurs,
            Self::Window { .. } => Kind::Window,
            Self::RowBlob { .. } => Kind::RowBlob,
            Self::RowRead { .. } => Kind::RowRead,
            Self::Save { .. } => Kind::Save,
            Self::Load { .. } => Kind::Load,
            Self::Page { .. } => Kind::Page,
        }
    }

    /// The lengths of the areas that the caller lends, where there are any.
    pub fn areas(&self) -> Option<&Areas> {
        match self {
            Self::FreshExchange { areas, .. }
            | Self::Envelope { areas, .. }
            | Self::Inventory { areas, .. }
            | Self::Fetch { areas, .. }
            | Self::CustodyCode { areas, .. }
            | Self::Tomb { areas, .. }
            | Self::Opened { areas, .. }
            | Self::StoredTombstone { areas, .. }
            | Self::Maintenance { areas }
            | Self::InventoryOfOurs { areas, .. }
            | Self::Window { areas, .. }
            | Self::RowBlob { areas, .. }
            | Self::Save { areas }
            | Self::Page { areas, .. } => Some(areas),
            _ => None,
        }
    }

    /// The contact that the call comes from or speaks of, except a contact being added.
    pub fn peer(&self) -> Option<u64> {
        match self {
            Self::FreshExchange { peer, .. }
            | Self::Envelope { peer, .. }
            | Self::Inventory { peer, .. }
            | Self::Fetch { peer, .. }
            | Self::CustodyCode { peer, .. }
            | Self::Tomb { peer, .. }
            | Self::Opened { peer, .. }
            | Self::Failed { peer, .. }
            | Self::InventoryOfOurs { peer, .. }
            | Self::OwnEnvelope(NewOwn { contact: peer, .. }) => Some(*peer),
            _ => None,
        }
    }
}

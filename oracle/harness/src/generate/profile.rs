use super::rng::Rng;
use post::{Kind, Sizes};

/// What a list of calls goes after.
#[derive(Debug, Clone, Copy, PartialEq, Eq)]
pub enum Profile {
    /// Few cells and rows: everything fills up.
    Mixed,
    /// Offers, codes, long lists, several exchanges.
    Exchange,
    /// 256 cells: quotas of 16 and 32, and 256 rows in all.
    Quota,
    /// Around 1,024 tombstones.
    Tombs,
    /// The last slots.
    Slots,
    /// Saved files, damaged and not.
    Files,
    /// Own rows up to 256, renewals.
    Own,
    /// Up to 257 contacts.
    Contacts,
    /// The window call.
    Windows,
    /// 256 carried rows, 1,024 tombstones and many own rows at once.
    Full,
}

/// The lists of the seeds that this divides hold all at once.
const FULL_EVERY: u64 = 25;

impl Profile {
    /// The profiles of the other seeds, in turn.
    const IN_TURN: [Self; 9] = [
        Self::Mixed,
        Self::Exchange,
        Self::Quota,
        Self::Tombs,
        Self::Slots,
        Self::Files,
        Self::Own,
        Self::Contacts,
        Self::Windows,
    ];

    pub fn of_seed(seed: u64) -> Self {
        if seed.is_multiple_of(FULL_EVERY) {
            return Self::Full;
        }
        Self::IN_TURN[(seed % Self::IN_TURN.len() as u64) as usize]
    }

    pub fn named(name: &str) -> Option<Self> {
        let lower = |profile: &Self| format!("{profile:?}").to_lowercase();
        let mut all = Self::IN_TURN.into_iter().chain([Self::Full]);
        all.find(|profile| lower(profile) == name)
    }

    /// Whether lists of it come to 1,024 tombstones.
    pub fn fills_tombstones(self) -> bool {
        matches!(self, Self::Tombs | Self::Full)
    }

    /// So many contacts at the front are verified from the start.
    pub fn verified(self) -> usize {
        match self {
            Self::Quota => 7,
            Self::Full => super::DEPOSITORS,
            _ => 0,
        }
    }

    pub fn sizes(self, rng: &mut Rng) -> Sizes {
        let few = Sizes {
            carried_cells: rng.between(0, 7),
            own_cells: rng.between(0, 6),
            tombstone_rows: rng.between(0, 7),
            bad_rows: rng.between(0, 4),
            exchanges: 3,
        };
        match self {
            Self::Mixed | Self::Slots | Self::Windows => few,
            Self::Exchange => Sizes {
                carried_cells: 16,
                own_cells: 12,
                tombstone_rows: 24,
                bad_rows: 8,
                exchanges: 3,
            },
            Self::Quota => Sizes {
                carried_cells: rng.pick(&[256, 256, 256, 255, 250]),
                tombstone_rows: 6,
                ..few
            },
            Self::Tombs => Sizes {
                carried_cells: 24,
                tombstone_rows: rng.pick(&[1022, 1023, 1024, 1024, 1025, 1030, 1100, 1280]),
                ..few
            },
            Self::Files => Sizes {
                carried_cells: rng.pick(&[3, 8, 40, 255, 256]),
                tombstone_rows: rng.pick(&[2, 6, 20]),
                ..few
            },
            Self::Own => Sizes {
                own_cells: rng.pick(&[256, 256, 255, 40]),
                ..few
            },
            Self::Contacts => Sizes {
                carried_cells: 40,
                ..few
            },
            Self::Full => Sizes {
                carried_cells: 256,
                own_cells: super::OWN + few.own_cells,
                tombstone_rows: rng.pick(&[1024, 1025]),
                ..few
            },
        }
    }

    /// How often each kind of call comes, beside the others.
    pub fn weight(self, kind: Kind) -> usize {
        let usual = match kind {
            Kind::Contact | Kind::Setting | Kind::Failed => 4,
            Kind::Clock => 8,
            Kind::FreshExchange => 6,
            Kind::Envelope => 24,
            Kind::Inventory => 18,
            Kind::Fetch | Kind::Opened | Kind::Maintenance => 5,
            Kind::CustodyCode => 12,
            Kind::Tomb | Kind::OwnEnvelope => 8,
            Kind::StoredTombstone => 6,
            Kind::InventoryOfOurs | Kind::Window | Kind::RowRead | Kind::Page => 3,
            Kind::RowBlob | Kind::Save | Kind::Load => 2,
        };
        match (self, kind) {
            (Self::Exchange, Kind::Inventory | Kind::CustodyCode | Kind::FreshExchange) => usual * 3,
            (Self::Exchange, Kind::OwnEnvelope) => usual * 2,
            (Self::Exchange | Self::Own, Kind::Load) => 1,
            (Self::Quota, Kind::Envelope) => 70,
            (Self::Quota | Self::Tombs | Self::Full, Kind::Load | Kind::Save | Kind::Maintenance) => 1,
            (Self::Quota | Self::Tombs | Self::Full, Kind::Clock) => 3,
            (Self::Tombs, Kind::StoredTombstone | Kind::Opened | Kind::Tomb) => 30,
            (Self::Slots, Kind::Load) => 8,
            (Self::Slots, Kind::StoredTombstone | Kind::Opened | Kind::Tomb) => 14,
            (Self::Files, Kind::Load) => 60,
            (Self::Files, Kind::RowRead) => 20,
            (Self::Own, Kind::OwnEnvelope) => 60,
            (Self::Own, Kind::Maintenance) => 8,
            (Self::Contacts, Kind::Contact) => 30,
            (Self::Windows, Kind::Window) => 60,
            _ => usual,
        }
    }
}

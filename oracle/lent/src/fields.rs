//! The device and an exchange as they lie in their areas: numbers with the highest byte first, a flag on unless its byte is 0. Any bytes
//! are a device and an exchange, and only what a call changes is written.

use post::{Setting, array};

/// What an area says of the device.
#[derive(Debug, Clone, Copy, PartialEq, Eq)]
pub struct Device {
    pub setting: Setting,
    pub clock: u64,
    pub contacts: usize,
    pub own: usize,
    pub carried: usize,
    pub tombstones: usize,
    pub bad_tags: usize,
    pub next_slot: u64,
}

impl Device {
    pub const LENGTH: usize = 60;
    /// Where each field begins.
    pub const ENABLED: usize = 0;
    pub const COPIES: usize = 1;
    pub const LIFETIME: usize = 2;
    pub const CLOCK: usize = 4;
    pub const CONTACTS: usize = 12;
    pub const OWN: usize = 20;
    pub const CARRIED: usize = 28;
    pub const TOMBSTONES: usize = 36;
    pub const BAD_TAGS: usize = 44;
    pub const NEXT_SLOT: usize = 52;

    pub fn read(area: &[u8; Self::LENGTH]) -> Self {
        Self {
            setting: Setting {
                enabled: area[Self::ENABLED] != 0,
                copies: area[Self::COPIES],
                lifetime: u16::from_be_bytes(array(area, Self::LIFETIME)),
            },
            clock: number(area, Self::CLOCK),
            contacts: number(area, Self::CONTACTS) as usize,
            own: number(area, Self::OWN) as usize,
            carried: number(area, Self::CARRIED) as usize,
            tombstones: number(area, Self::TOMBSTONES) as usize,
            bad_tags: number(area, Self::BAD_TAGS) as usize,
            next_slot: number(area, Self::NEXT_SLOT),
        }
    }

    /// No row, contact or bad tag, clock and next slot 0, the default setting: the same bytes whatever the area was.
    pub fn put_fresh(area: &mut [u8; Self::LENGTH]) {
        area.fill(0);
        put_setting(area, Some(Setting::default()));
    }
}

/// What an area says of an exchange.
#[derive(Debug, Clone, Copy, PartialEq, Eq, Default)]
pub struct Exchange {
    pub peer: Option<u64>,
    pub complete: bool,
    pub listed: usize,
    pub offered: usize,
}

impl Exchange {
    pub const LENGTH: usize = 26;
    /// Where each field begins. The peer's bytes say nothing unless the exchange is open.
    pub const OPEN: usize = 0;
    pub const COMPLETE: usize = 1;
    pub const PEER: usize = 2;
    pub const LISTED: usize = 10;
    pub const OFFERED: usize = 18;

    pub fn read(area: &[u8; Self::LENGTH]) -> Self {
        Self {
            peer: (area[Self::OPEN] != 0).then(|| number(area, Self::PEER)),
            complete: area[Self::COMPLETE] != 0,
            listed: number(area, Self::LISTED) as usize,
            offered: number(area, Self::OFFERED) as usize,
        }
    }
}

fn number(area: &[u8], at: usize) -> u64 {
    u64::from_be_bytes(array(area, at))
}

pub fn put_number(area: &mut [u8], at: usize, number: Option<u64>) {
    if let Some(number) = number {
        area[at..at + 8].copy_from_slice(&number.to_be_bytes());
    }
}

/// A byte that says so already stays.
pub fn put_flag(area: &mut [u8], at: usize, on: Option<bool>) {
    if let Some(on) = on
        && on != (area[at] != 0)
    {
        area[at] = on.into();
    }
}

pub fn put_setting(area: &mut [u8; Device::LENGTH], setting: Option<Setting>) {
    if let Some(setting) = setting {
        put_flag(area, Device::ENABLED, Some(setting.enabled));
        area[Device::COPIES] = setting.copies;
        area[Device::LIFETIME..Device::CLOCK].copy_from_slice(&setting.lifetime.to_be_bytes());
    }
}

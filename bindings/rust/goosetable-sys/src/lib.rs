//! The functions of `libgoosetable.a` as C has them; `include/goosetable.h` says what each does. The crate `goosetable` beside this one is a post that
//! owns its areas.
//!
//! A slice is a pointer and a length, never null; a table of fixed size is a pointer alone. No area that is written may overlap another area of the same
//! call. Nothing else is asked of a caller: areas may have any length and hold any bytes.
//!
//! [`Areas`], [`Tables`] and [`Session`] are a post's areas lent by reference, and have each call as a safe method, by the function's name without
//! `goosetable_`. [`OwnRow`] and the like are rows read from their bytes.
#![no_std]

mod areas;
mod rows;

pub use areas::{
    Areas, Envelope, OwnEnvelope, Session, Tables, commitment, delivered, fresh, route_tag,
    row_read, version, window,
};
pub use rows::{ActionRow, Fields, KeyRow, OwnRow, ReplyRow};

/// Bytes of the area in which a post's device lies.
pub const DEVICE: usize = 60;
/// Bytes of the area in which an exchange lies; zeros are one that was opened for nobody.
pub const EXCHANGE: usize = 26;

/// Bytes of a contact.
pub const CONTACT_ROW: usize = 9;
/// Bytes of an own row.
pub const OWN_ROW: usize = 54;
/// Bytes of a carried row.
pub const CARRIED_ROW: usize = 57;
/// Bytes of a tombstone.
pub const TOMBSTONE_ROW: usize = 44;
/// Bytes of a bad tag.
pub const BAD_TAG_ROW: usize = 24;
/// Bytes of a window row.
pub const WINDOW_ROW: usize = 30;
/// Bytes of an offer.
pub const OFFER_ROW: usize = 17;
/// Bytes of a reply.
pub const REPLY_ROW: usize = 40;
/// Bytes of an action.
pub const ACTION_ROW: usize = 13;
/// Bytes of a chain.
pub const CHAIN_ROW: usize = 10;
/// Bytes of a skipped or listed key.
pub const KEY_ROW: usize = 6;
/// Bytes of a tag, a commitment or a secret.
pub const TAG: usize = 16;
/// Bytes of a tag's prefix.
pub const PREFIX: usize = 8;
/// Bytes of a route key or a message key.
pub const KEY: usize = 32;
/// Bytes of a reply's body.
pub const BODY: usize = 37;
/// Bytes of the cell of a ciphertext.
pub const CELL: usize = 2064;

/// The most rows of a table of fixed size, and the most cells of an area that count.
pub const MAX_ROWS: usize = 256;
/// The cell in the reply of a row whose cell does not count: the envelope has no ciphertext.
pub const NO_CELL: u16 = 65535;
/// The most prefixes that an exchange lists, and the most offers that it has.
pub const MAX_LISTED: usize = 512;

/// Bytes of the table of contacts.
pub const CONTACTS: usize = MAX_ROWS * CONTACT_ROW;
/// Bytes of the table of own rows.
pub const OWN: usize = MAX_ROWS * OWN_ROW;
/// Bytes of the table of carried rows.
pub const CARRIED: usize = MAX_ROWS * CARRIED_ROW;

/// Bytes that the reply area needs at least.
pub const REPLIES: usize = 61440;
/// Bytes that the area for an exchange's or an inventory's prefixes needs at least.
pub const PREFIXES: usize = MAX_LISTED * PREFIX;
/// Bytes that the area for an exchange's offers needs at least.
pub const OFFERS: usize = MAX_LISTED * OFFER_ROW;
/// Bytes that the area for the window call's keys needs at least.
pub const KEYS: usize = 3000;
/// Bytes that the area for a row's blob needs at least.
pub const BLOB: usize = 2110;
/// Bytes that the area for a screen page needs at least.
pub const PAGE: usize = PAGE_LINE * (1 + PAGE_ROWS);
/// Bytes of a page's line, its line end included.
pub const PAGE_LINE: usize = 81;
/// The most rows of a page, which stand below the line of its heading.
pub const PAGE_ROWS: usize = 19;
/// Bytes of a carried row's blob before its ciphertext.
pub const CARRIED_HEAD: usize = 46;

/// Bytes that the action area of a post with so many tombstone rows needs at least.
pub const fn actions(tombstone_rows: usize) -> usize {
    ACTION_ROW * (2 * MAX_ROWS + tombstone_rows)
}

/// Bytes that the area for the saved file of a post with so many carried cells and tombstone rows needs at least.
pub const fn file(carried_cells: usize, tombstone_rows: usize) -> usize {
    10 + 2122 * carried_cells + 49 * tombstone_rows
}

/// A call was done. A number from 1 to 13 is a refusal's.
pub const DONE: u8 = 0;
/// What the peer sent is malformed.
pub const MALFORMED: u8 = 128;
/// The envelope is in the window.
pub const OURS: u8 = 129;
/// No such envelope, no such row.
pub const MISSING: u8 = 130;
/// The message gets no own envelope.
pub const NO_ENVELOPE: u8 = 131;

/// A reply asks for an envelope.
pub const REPLY_FETCH: u8 = 0;
/// A reply is an envelope.
pub const REPLY_ENVELOPE: u8 = 1;
/// A reply is the code for an envelope.
pub const REPLY_CUSTODY: u8 = 2;
/// A reply is the secret that proves a delivery.
pub const REPLY_TOMB: u8 = 3;

/// The held row in a slot is stored.
pub const ACTION_PUT: u8 = 0;
/// The held row in a slot goes.
pub const ACTION_DELETE: u8 = 1;
/// The own row of a contact and message number is stored, or has ended.
pub const ACTION_OWN_PUT: u8 = 2;

/// A held row is carried.
pub const KIND_CARRIED: u8 = 1;
/// A held row is a tombstone.
pub const KIND_TOMBSTONE: u8 = 2;

/// The answer of every call.
#[repr(C)]
#[derive(Clone, Copy, Debug, Default, PartialEq, Eq)]
pub struct Answer {
    /// Whose envelope it is, where it is ours.
    pub contact: u64,
    /// Rows in front of the reply area.
    pub replies: usize,
    /// Rows in front of the action area.
    pub actions: usize,
    /// Rows or bytes in front of another answer area; bytes of a fetched ciphertext; of an inventory's end, rows for which the tombstones were searched.
    pub length: usize,
    /// Index and generation of an envelope that is ours.
    pub idx: u32,
    pub generation: u8,
    pub said: u8,
}

/// A held row that was read: kind 0 none, 1 carried, 2 a tombstone.
#[repr(C)]
#[derive(Clone, Copy, Debug, Default, PartialEq, Eq)]
pub struct Row {
    pub depositor: u64,
    pub expiry_min: u32,
    pub tag: [u8; 16],
    /// A commitment or a secret.
    pub second: [u8; 16],
    pub copies: u8,
    pub kind: u8,
}

unsafe extern "C" {
    pub fn goosetable_fresh(device: *mut [u8; DEVICE]);
    pub fn goosetable_clock(device: *mut [u8; DEVICE], seconds: u64) -> Answer;
    pub fn goosetable_setting(
        device: *mut [u8; DEVICE],
        enabled: u8,
        copies: u8,
        lifetime: u16,
    ) -> Answer;
    pub fn goosetable_contact(
        device: *mut [u8; DEVICE],
        id: u64,
        verification: u8,
        contacts: *mut [u8; CONTACTS],
    ) -> Answer;
    pub fn goosetable_fresh_exchange(
        device: *const [u8; DEVICE],
        exchange: *mut [u8; EXCHANGE],
        peer: u64,
        contacts: *const [u8; CONTACTS],
        prefixes: *const u8,
        prefixes_len: usize,
        offers: *const u8,
        offers_len: usize,
    ) -> Answer;
    pub fn goosetable_envelope(
        device: *mut [u8; DEVICE],
        peer: u64,
        tag: *const [u8; 16],
        c: *const [u8; 16],
        expiry: u32,
        copies: u8,
        ct: *const u8,
        ct_len: usize,
        window: *const u8,
        window_len: usize,
        contacts: *const [u8; CONTACTS],
        own: *const [u8; OWN],
        carried: *mut [u8; CARRIED],
        tombstones: *const u8,
        tombstones_len: usize,
        carried_cells: *mut u8,
        carried_cells_len: usize,
        replies: *mut u8,
        replies_len: usize,
        actions: *mut u8,
        actions_len: usize,
    ) -> Answer;
    pub fn goosetable_fetch(
        device: *const [u8; DEVICE],
        peer: u64,
        tag: *const [u8; 16],
        contacts: *const [u8; CONTACTS],
        own: *const [u8; OWN],
        carried: *const [u8; CARRIED],
        own_cells: *const u8,
        own_cells_len: usize,
        carried_cells: *const u8,
        carried_cells_len: usize,
        replies: *mut u8,
        replies_len: usize,
    ) -> Answer;
    pub fn goosetable_own_envelope(
        device: *mut [u8; DEVICE],
        contact: u64,
        msgno: u32,
        route_key: *const [u8; 32],
        dir: u8,
        generation: u8,
        idx: u32,
        s: *const [u8; 16],
        ct: *const u8,
        ct_len: usize,
        contacts: *const [u8; CONTACTS],
        own: *mut [u8; OWN],
        own_cells: *mut u8,
        own_cells_len: usize,
        row: *mut [u8; OWN_ROW],
    ) -> Answer;
    pub fn goosetable_inventory_of_ours(
        device: *const [u8; DEVICE],
        peer: u64,
        contacts: *const [u8; CONTACTS],
        own: *const [u8; OWN],
        carried: *const [u8; CARRIED],
        prefixes: *mut u8,
        prefixes_len: usize,
    ) -> Answer;
    pub fn goosetable_inventory(
        device: *const [u8; DEVICE],
        exchange: *mut [u8; EXCHANGE],
        peer: u64,
        contacts: *const [u8; CONTACTS],
        own: *const [u8; OWN],
        carried: *const [u8; CARRIED],
        tombstones: *const u8,
        tombstones_len: usize,
        bad_tags: *const u8,
        bad_tags_len: usize,
        window: *const u8,
        window_len: usize,
        listed: *const u8,
        listed_len: usize,
        prefixes: *mut u8,
        prefixes_len: usize,
        offers: *mut u8,
        offers_len: usize,
        replies: *mut u8,
        replies_len: usize,
    ) -> Answer;
    pub fn goosetable_custody_code(
        device: *mut [u8; DEVICE],
        exchange: *mut [u8; EXCHANGE],
        peer: u64,
        tag: *const [u8; 16],
        code: u8,
        contacts: *const [u8; CONTACTS],
        own: *mut [u8; OWN],
        carried: *mut [u8; CARRIED],
        tombstones: *const u8,
        tombstones_len: usize,
        prefixes: *const u8,
        prefixes_len: usize,
        offers: *mut u8,
        offers_len: usize,
        actions: *mut u8,
        actions_len: usize,
    ) -> Answer;
    pub fn goosetable_stored_tombstone(
        device: *mut [u8; DEVICE],
        tag: *const [u8; 16],
        s: *const [u8; 16],
        expiry: u32,
        tombstones: *mut u8,
        tombstones_len: usize,
        actions: *mut u8,
        actions_len: usize,
    ) -> Answer;
    pub fn goosetable_tomb(
        device: *mut [u8; DEVICE],
        peer: u64,
        tag: *const [u8; 16],
        s: *const [u8; 16],
        contacts: *const [u8; CONTACTS],
        own: *mut [u8; OWN],
        carried: *mut [u8; CARRIED],
        tombstones: *mut u8,
        tombstones_len: usize,
        actions: *mut u8,
        actions_len: usize,
    ) -> Answer;
    pub fn goosetable_opened(
        device: *mut [u8; DEVICE],
        peer: u64,
        tag: *const [u8; 16],
        s: *const [u8; 16],
        expiry: u32,
        contacts: *const [u8; CONTACTS],
        tombstones: *mut u8,
        tombstones_len: usize,
        replies: *mut u8,
        replies_len: usize,
        actions: *mut u8,
        actions_len: usize,
    ) -> Answer;
    pub fn goosetable_failed(
        device: *mut [u8; DEVICE],
        peer: u64,
        tag: *const [u8; 16],
        contacts: *const [u8; CONTACTS],
        bad_tags: *mut u8,
        bad_tags_len: usize,
    ) -> Answer;
    pub fn goosetable_maintenance(
        device: *mut [u8; DEVICE],
        own: *mut [u8; OWN],
        carried: *mut [u8; CARRIED],
        tombstones: *mut u8,
        tombstones_len: usize,
        actions: *mut u8,
        actions_len: usize,
    ) -> Answer;
    pub fn goosetable_row_blob(
        device: *const [u8; DEVICE],
        slot: u64,
        carried: *const [u8; CARRIED],
        tombstones: *const u8,
        tombstones_len: usize,
        carried_cells: *const u8,
        carried_cells_len: usize,
        blob: *mut u8,
        blob_len: usize,
    ) -> Answer;
    pub fn goosetable_save(
        device: *const [u8; DEVICE],
        carried: *const [u8; CARRIED],
        tombstones: *const u8,
        tombstones_len: usize,
        carried_cells: *const u8,
        carried_cells_len: usize,
        file: *mut u8,
        file_len: usize,
    ) -> Answer;
    pub fn goosetable_page(
        device: *const [u8; DEVICE],
        page: u64,
        carried: *const [u8; CARRIED],
        tombstones: *const u8,
        tombstones_len: usize,
        area: *mut u8,
        area_len: usize,
    ) -> Answer;
    pub fn goosetable_load(
        device: *mut [u8; DEVICE],
        contacts: *const [u8; CONTACTS],
        carried: *mut [u8; CARRIED],
        tombstones: *mut u8,
        tombstones_len: usize,
        carried_cells: *mut u8,
        carried_cells_len: usize,
        file: *const u8,
        file_len: usize,
    ) -> Answer;
    pub fn goosetable_window(
        skipped: *const u8,
        skipped_len: usize,
        chains: *const u8,
        chains_len: usize,
        answer: *mut u8,
        answer_len: usize,
    ) -> Answer;
    pub fn goosetable_route_tag(
        route_key: *const [u8; 32],
        dir: u8,
        generation: u8,
        idx: u32,
        tag: *mut [u8; 16],
    ) -> Answer;
    pub fn goosetable_delivered(message_key: *const [u8; 32], s: *mut [u8; 16]);
    pub fn goosetable_commitment(s: *const [u8; 16], c: *mut [u8; 16]);
    pub fn goosetable_row_read(blob: *const u8, blob_len: usize) -> Row;
    pub fn goosetable_version_0_2() -> u32;
}

/// Refers to the function whose name has the version, so that a library of another version does not link.
#[used]
static VERSION_LINKED: unsafe extern "C" fn() -> u32 = goosetable_version_0_2;

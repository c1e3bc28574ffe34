#![doc = include_str!("../../README.md")]
#![no_std]
#![warn(missing_docs, clippy::missing_errors_doc)]
#![forbid(unsafe_code)]

extern crate alloc;

mod answers;
mod areas;
mod calls;
mod exchange;
mod file;
mod keys;
mod post;
mod refusal;
mod rows;
mod values;
mod window;

pub use answers::{Action, Actions, Opened, Received, Record, Replies, Reply};
pub use areas::{Areas, SizeError, Sizes};
pub use exchange::Exchange;
pub use file::{NoRow, SavedFile};
pub use goosetable_sys::{
    BAD_TAG_ROW, BLOB, CARRIED, CELL, CONTACTS, DEVICE, MAX_LISTED, MAX_ROWS, OWN, PAGE, PAGE_ROWS,
    TOMBSTONE_ROW,
};
pub use keys::{commitment, delivered, route_tag};
pub use post::{Counts, OwnMessage, Post};
pub use refusal::Refusal;
#[allow(deprecated)]
pub use rows::stored_row;
pub use rows::{BadTag, CarriedRow, Contact, HeldRow, OwnRow, Tombstone, row_read};
pub use values::{
    Commitment, ContactId, Custody, Direction, Envelope, Header, MessageKey, Prefix, Secret,
    Setting, Slot, Tag, Verification,
};
pub use window::{Chain, KeyTwice, Window, WindowRow, window};

/// The version of the library that was linked, major × 10,000 + minor × 100 + patch. One of other first two numbers
/// than this crate's does not link.
pub fn library_version() -> u32 {
    calls::version()
}

/// A host cannot spell out what later versions extend: none of these compiles.
///
/// ```compile_fail,E0638
/// fn host(counts: goosetable::Counts) {
///     let goosetable::Counts { contacts, own, carried, tombstones, bad_tags } = counts;
/// }
/// ```
///
/// ```compile_fail,E0638
/// fn host(opened: goosetable::Opened<'_>) {
///     let goosetable::Opened { replies, actions } = opened;
/// }
/// ```
///
/// ```compile_fail,E0638
/// fn host(contact: goosetable::Contact) {
///     let goosetable::Contact { id, verification } = contact;
/// }
/// ```
///
/// ```compile_fail,E0638
/// fn host(row: goosetable::CarriedRow<'_>) {
///     let goosetable::CarriedRow { slot, depositor, envelope } = row;
/// }
/// ```
///
/// ```compile_fail,E0638
/// fn host(row: goosetable::Tombstone) {
///     let goosetable::Tombstone { slot, tag, secret, expiry_min } = row;
/// }
/// ```
///
/// ```compile_fail,E0638
/// fn host(received: goosetable::Received<'_>) {
///     if let goosetable::Received::Ours { contact, generation, index } = received {}
/// }
/// ```
///
/// ```compile_fail,E0639
/// let _ = goosetable::Refusal::Other { number: 2 };
/// ```
#[cfg(doctest)]
pub struct Extended;

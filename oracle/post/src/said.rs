//! What a call says, in the library's numbers: one of these, or the number of its refusal.

pub const DONE: u8 = 0;
/// The last number of a refusal; 1 is the first.
pub const LAST_REFUSAL: u8 = 13;
/// What the peer sent is malformed.
pub const MALFORMED: u8 = 128;
/// The envelope is in the window.
pub const OURS: u8 = 129;
/// No such envelope, no such row.
pub const MISSING: u8 = 130;
/// The message gets no own envelope.
pub const NO_ENVELOPE: u8 = 131;

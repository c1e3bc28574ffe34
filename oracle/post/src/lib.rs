//! What every party to a comparison shares: the calls, their answers, and the state of a post.

mod answer;
mod bytes;
mod call;
mod file;
mod rows;
pub mod said;
mod state;

pub use answer::{Action, Answer, Reply};
pub use bytes::{Bytes, Screen, array};
pub use call::{Areas, Call, Kind, NewOwn};
pub use file::{FileRecord, canonical, encode_file, records};
pub use rows::{ChainRow, SkippedRow, WindowRow, encode_chains, encode_skipped, encode_window};
pub use state::{
    Contact, Custody, Dir, Envelope, Exchange, Held, HeldRow, OwnRow, Prefix, Setting, Sizes, State, Tag, Verification,
};

use std::borrow::Cow;

/// A post that takes every call.
pub trait Post {
    fn perform(&mut self, call: &Call) -> Answer;

    /// Everything that the post holds, as lists.
    fn state(&mut self) -> Cow<'_, State>;

    /// Bytes that the last call wrote and that it was not said to write.
    /// A party that works on lent areas fills them with a pattern first and names each such place;
    /// a party without areas has none.
    fn stray_writes(&mut self) -> Vec<String> {
        Vec::new()
    }
}

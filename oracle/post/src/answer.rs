use crate::{Bytes, Custody, Dir, Envelope, Held, OwnRow, Prefix, Screen, Tag, canonical};

#[derive(Debug, Clone, PartialEq, Eq)]
pub enum Reply {
    Fetch(Tag),
    Envelope(Envelope),
    Custody(Tag, Custody),
    Tomb(Tag, [u8; 16]),
}

#[derive(Debug, Clone, Copy, PartialEq, Eq)]
pub enum Action {
    Put { slot: u64 },
    Delete { slot: u64 },
    OwnPut { contact: u64, message: u32 },
}

#[derive(Debug, Clone, PartialEq, Eq)]
pub enum Answer {
    Refused(u8),
    /// The word "malformed", replies and actions; their counts are the lengths of the lists. At the end of an inventory that is done, for how
    /// many rows the tombstones were searched (request Three); 0 for all else.
    Done {
        malformed: bool,
        replies: Vec<Reply>,
        actions: Vec<Action>,
        searched: usize,
    },
    Ours {
        contact: u64,
        generation: u8,
        index: u32,
    },
    NoEnvelope,
    Own(OwnRow),
    Listed(Vec<Prefix>),
    Window(Vec<(Dir, u8, u32)>),
    Blob(Option<Bytes>),
    Row(Option<Held>),
    Saved(Bytes),
    Page(Screen),
}

impl Answer {
    pub fn nothing() -> Self {
        Self::Done {
            malformed: false,
            replies: Vec::new(),
            actions: Vec::new(),
            searched: 0,
        }
    }

    /// Equal, except that the rows of a saved file may stand in any order.
    pub fn agrees(&self, other: &Self) -> bool {
        match (self, other) {
            (Self::Saved(one), Self::Saved(two)) => {
                one == two || canonical(one).is_some_and(|one| Some(one) == canonical(two))
            }
            _ => self == other,
        }
    }
}

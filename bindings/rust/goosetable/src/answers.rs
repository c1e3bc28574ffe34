//! What calls answer.

use crate::{
    ContactId, Custody, Envelope, Header, Post, Secret, Slot, Tag,
    rows::{Fields, Typed},
};
use alloc::vec::Vec;
use core::{fmt, iter::FusedIterator, slice};
use goosetable_sys::{self as sys, ACTION_ROW, ActionRow, Answer, REPLY_ROW, ReplyRow};

/// What a call made of a peer's record.
#[derive(Clone, Debug)]
#[must_use = "a malformed record ends the session, and the host's store is to follow the actions"]
pub enum Record<T> {
    /// It is no record that a peer may send now. Nothing was changed: the host drops the session and sends
    /// nothing more on it.
    Malformed,
    /// It was taken, with this answer.
    Taken(T),
}

/// What became of an envelope.
#[derive(Clone, Debug)]
#[must_use = "the host's store is to follow the actions, and the peer waits for the code"]
pub enum Received<'a> {
    /// It is in the window, and nothing was changed. The host opens it and reports what came of it, with
    /// [`Post::opened`] or [`Post::failed`].
    ///
    /// Contact, generation and index are those of the first window row with the tag. The direction is not
    /// said: in a window of both directions two rows that differ in nothing else cannot be told apart by
    /// this answer. [`Window::row_of`](crate::Window::row_of) has that row, with its direction.
    #[non_exhaustive]
    Ours {
        /// Whose message it is.
        contact: ContactId,
        /// The generation of its key.
        generation: u8,
        /// The index of its key.
        index: u32,
    },
    /// It is answered by a code.
    #[non_exhaustive]
    Replied {
        /// The code for the peer.
        code: Custody,
        /// What changed in the held rows: one put where the code is Accepted, else nothing. It is stored
        /// before the code is sent.
        actions: Actions<'a>,
    },
}

/// What follows the opening of an envelope.
#[derive(Clone, Debug)]
#[must_use = "the host's store is to follow the actions, and the peer waits for the tomb"]
#[non_exhaustive]
pub struct Opened<'a> {
    /// The tomb for the peer, in place of a code.
    pub replies: Replies<'a>,
    /// What changed in the held rows.
    pub actions: Actions<'a>,
}

/// A record for the peer.
#[derive(Clone, Copy, Debug, PartialEq, Eq)]
pub enum Reply<'a> {
    /// Asks for an envelope.
    Fetch(Tag),
    /// Hands an envelope over. It has no byte of ciphertext if its row has a cell that does not count.
    Envelope(Envelope<'a>),
    /// Answers an envelope.
    Custody {
        /// The envelope's tag.
        tag: Tag,
        /// What became of it.
        code: Custody,
    },
    /// Says that an envelope was delivered.
    Tomb {
        /// The envelope's tag.
        tag: Tag,
        /// The proof of its delivery.
        secret: Secret,
    },
}

impl<'a> Reply<'a> {
    /// The number of its kind: 0 fetch, 1 envelope, 2 custody, 3 tomb.
    pub const fn kind(&self) -> u8 {
        match self {
            Reply::Fetch(_) => sys::REPLY_FETCH,
            Reply::Envelope(_) => sys::REPLY_ENVELOPE,
            Reply::Custody { .. } => sys::REPLY_CUSTODY,
            Reply::Tomb { .. } => sys::REPLY_TOMB,
        }
    }

    /// The record's bytes on the link, without its kind: that is the session's matter.
    pub fn to_bytes(&self) -> Vec<u8> {
        match self {
            Reply::Fetch(tag) => tag.0.to_vec(),
            Reply::Envelope(envelope) => envelope.to_bytes(),
            Reply::Custody { tag, code } => [&tag.0[..], &[code.code()]].concat(),
            Reply::Tomb { tag, secret } => [tag.0, secret.0].concat(),
        }
    }

    /// The record that bytes of a kind are. None for another kind, another length or a code above 4: the peer's
    /// session is dropped.
    pub fn from_bytes(kind: u8, bytes: &'a [u8]) -> Option<Reply<'a>> {
        let mut fields = Fields(bytes);
        Some(match (kind, bytes.len()) {
            (sys::REPLY_FETCH, 16) => Reply::Fetch(fields.tag()),
            (sys::REPLY_ENVELOPE, _) => Reply::Envelope(Envelope::from_bytes(bytes)?),
            (sys::REPLY_CUSTODY, 17) => Reply::Custody {
                tag: fields.tag(),
                code: Custody::from_code(fields.u8())?,
            },
            (sys::REPLY_TOMB, 32) => Reply::Tomb {
                tag: fields.tag(),
                secret: fields.secret(),
            },
            _ => return None,
        })
    }
}

/// A change that the host's store is to follow, before the next call and before a reply of this call is sent.
#[derive(Clone, Copy, Debug, PartialEq, Eq)]
#[non_exhaustive]
pub enum Action {
    /// Store the row of a slot, in place of what is there, in one write: its bytes are [`Post::row_blob`]'s.
    Put(Slot),
    /// Delete what is stored in a slot. That of a tombstone which goes for another stands before the other's put. It is
    /// carried out first: else a power cut between them could leave one tombstone more than there are rows.
    Delete(Slot),
    /// An own row changed or ended. If [`Post::own_row`] still has it, store its
    /// [`to_bytes`](crate::OwnRow::to_bytes): copies were handed on, or it was renewed. If not, it has ended:
    /// after [`Post::tomb`] it was delivered, after [`Post::maintenance`] it expired a second time.
    OwnPut {
        /// Whom the message is for.
        contact: ContactId,
        /// Its number.
        message: u32,
    },
}

/// How many items of a long list `Debug` shows.
const SHOWN: usize = 16;

/// The first items of a list, and how many follow.
fn debug_list<I>(items: I, f: &mut fmt::Formatter<'_>) -> fmt::Result
where
    I: ExactSizeIterator<Item: fmt::Debug>,
{
    let more = items.len().saturating_sub(SHOWN);
    let mut list = f.debug_list();
    list.entries(items.take(SHOWN));
    if 0 < more {
        list.entry(&format_args!("and {more} more"));
    }
    list.finish()
}

/// The replies of a call, in the order in which they are sent.
#[derive(Clone)]
#[must_use = "the peer waits for them"]
pub struct Replies<'a> {
    post: &'a Post,
    rows: slice::Iter<'a, [u8; REPLY_ROW]>,
    searched: usize,
}

impl<'a> Replies<'a> {
    pub(crate) fn new(post: &'a Post, count: usize) -> Replies<'a> {
        let (rows, _) = post.replies.as_chunks();
        Replies {
            post,
            rows: rows[..count].iter(),
            searched: 0,
        }
    }

    /// Those of the inventory call, whose answer has a count more.
    pub(crate) fn to_list(post: &'a Post, answer: &Answer) -> Replies<'a> {
        Replies {
            searched: answer.length,
            ..Replies::new(post, answer.replies)
        }
    }

    /// The post as the call left it.
    pub fn post(&self) -> &'a Post {
        self.post
    }

    /// For how many rows the tombstones were searched: of the end of an inventory; 0 of every other answer. It stays
    /// when replies are taken.
    ///
    /// These are the rows that would be offered if no tag were tombstoned, at most 512: with 2 copies or more, a prefix
    /// that the peer did not list, and, of own rows, another contact than the peer. The count less the offers is the
    /// number of rows that a tombstone alone holds back.
    pub fn searched(&self) -> usize {
        self.searched
    }

    fn read(&self, row: &[u8; REPLY_ROW]) -> Reply<'a> {
        let row = ReplyRow::read(row);
        let mut fields = Fields(&row.body);
        match row.kind {
            sys::REPLY_FETCH => Reply::Fetch(fields.tag()),
            sys::REPLY_ENVELOPE => Reply::Envelope(self.offered(row.cell, fields.header())),
            sys::REPLY_CUSTODY => Reply::Custody {
                tag: fields.tag(),
                code: fields.custody(),
            },
            sys::REPLY_TOMB => Reply::Tomb {
                tag: fields.tag(),
                secret: fields.secret(),
            },
            kind => unreachable!("a reply of kind {kind}"),
        }
    }

    /// The envelope of an offer, which names its cell; the length is in the post's row.
    fn offered(&self, cell: u16, header: Header) -> Envelope<'a> {
        let areas = &self.post.areas;
        let len = areas.ciphertext_len(cell, header.tag);
        Envelope {
            header,
            ciphertext: areas.ciphertext(cell, len),
        }
    }
}

/// The envelope that the fetch call found, with a ciphertext of so many bytes.
pub(crate) fn fetched(post: &Post, len: usize) -> Envelope<'_> {
    let row = ReplyRow::read(&Fields(&post.replies).array());
    Envelope {
        header: Fields(&row.body).header(),
        ciphertext: post.areas.ciphertext(row.cell, len),
    }
}

impl<'a> Iterator for Replies<'a> {
    type Item = Reply<'a>;

    fn next(&mut self) -> Option<Reply<'a>> {
        self.rows.next().map(|row| self.read(row))
    }

    fn size_hint(&self) -> (usize, Option<usize>) {
        self.rows.size_hint()
    }
}

impl ExactSizeIterator for Replies<'_> {}

impl FusedIterator for Replies<'_> {}

impl fmt::Debug for Replies<'_> {
    fn fmt(&self, f: &mut fmt::Formatter<'_>) -> fmt::Result {
        debug_list(self.clone(), f)
    }
}

/// The actions of a call, in the order in which they are carried out: all in one write, if the host's storage
/// can. For one that cannot there is [`held_first`](Actions::held_first).
#[derive(Clone)]
#[must_use = "the host's store is to follow them"]
pub struct Actions<'a> {
    post: &'a Post,
    rows: slice::Iter<'a, [u8; ACTION_ROW]>,
}

impl<'a> Actions<'a> {
    pub(crate) fn new(post: &'a Post, count: usize) -> Actions<'a> {
        let (rows, _) = post.actions.as_chunks();
        Actions {
            post,
            rows: rows[..count].iter(),
        }
    }

    /// The post as the call left it, for the rows that are to be stored.
    pub fn post(&self) -> &'a Post {
        self.post
    }

    /// The same actions for a storage that writes one thing after the other: puts and deletes in their order,
    /// then the own puts. If power goes between them the tomb of an own row leaves the row beside its
    /// tombstone, which the next start sees and ends, and never neither of them; that of a carried row leaves the
    /// row as it was, and at most one tombstone less.
    pub fn held_first(self) -> impl Iterator<Item = Action> + Clone + use<'a> {
        let is_own = |action: &Action| matches!(action, Action::OwnPut { .. });
        let held = self.clone().filter(move |action| !is_own(action));
        held.chain(self.filter(is_own))
    }

    fn read(row: &[u8; ACTION_ROW]) -> Action {
        let row = ActionRow::read(row);
        match row.kind {
            sys::ACTION_PUT => Action::Put(Slot(row.number)),
            sys::ACTION_DELETE => Action::Delete(Slot(row.number)),
            sys::ACTION_OWN_PUT => Action::OwnPut {
                contact: ContactId(row.number),
                message: row.msgno,
            },
            kind => unreachable!("an action of kind {kind}"),
        }
    }
}

impl Iterator for Actions<'_> {
    type Item = Action;

    fn next(&mut self) -> Option<Action> {
        self.rows.next().map(Actions::read)
    }

    fn size_hint(&self) -> (usize, Option<usize>) {
        self.rows.size_hint()
    }
}

impl ExactSizeIterator for Actions<'_> {}

impl FusedIterator for Actions<'_> {}

impl fmt::Debug for Actions<'_> {
    fn fmt(&self, f: &mut fmt::Formatter<'_>) -> fmt::Result {
        debug_list(self.clone(), f)
    }
}

//! A post and its calls.

use crate::{
    Actions, Areas, BLOB, BadTag, CarriedRow, Contact, ContactId, Custody, Envelope, Exchange,
    MAX_LISTED, MessageKey, Opened, OwnRow, PAGE, PAGE_ROWS, Prefix, Received, Record, Refusal,
    Replies, Reply, Secret, Setting, SizeError, Sizes, Slot, Tag, Tombstone, Verification, Window,
    answers::fetched, areas::zeros, calls, values::Bytes,
};
use alloc::boxed::Box;
use core::fmt;
use goosetable_sys as sys;

/// A post: contacts, own envelopes, envelopes carried for others, tombstones. It owns its areas, each in
/// memory of its own, and the areas in which calls answer.
///
/// An answer borrows the post until it is used, so that no later call can write over it. What a host wants to
/// send later it copies.
#[derive(Clone)]
pub struct Post {
    pub(crate) areas: Areas,
    pub(crate) replies: Box<[u8]>,
    pub(crate) actions: Box<[u8]>,
}

/// How many rows each table has.
#[derive(Clone, Copy, Debug, Default, PartialEq, Eq)]
#[non_exhaustive]
pub struct Counts {
    /// Contacts.
    pub contacts: usize,
    /// Own envelopes.
    pub own: usize,
    /// Envelopes carried for others.
    pub carried: usize,
    /// Tombstones.
    pub tombstones: usize,
    /// Bad tags.
    pub bad_tags: usize,
}

/// A message that the host has queued and sealed.
#[derive(Clone, Copy, PartialEq, Eq)]
pub struct OwnMessage<'a> {
    /// Whom it is for.
    pub contact: ContactId,
    /// Its number among the messages for this contact.
    pub message: u32,
    /// The key that route tags of this contact are made with.
    pub route_key: &'a [u8; 32],
    /// Which message key it is sealed with.
    pub key: MessageKey,
    /// What its opening gives away: [`delivered`](crate::delivered) makes it of the message key.
    pub secret: Secret,
    /// The sealed message: 48, 80, 144, 272, 528, 1,040, 2,064 or 4,064 bytes.
    pub ciphertext: &'a [u8],
}

impl fmt::Debug for OwnMessage<'_> {
    fn fmt(&self, f: &mut fmt::Formatter<'_>) -> fmt::Result {
        f.debug_struct("OwnMessage")
            .field("contact", &self.contact)
            .field("message", &self.message)
            .field("key", &self.key)
            .field("ciphertext", &Bytes(self.ciphertext))
            .finish_non_exhaustive()
    }
}

/// The post itself.
impl Post {
    /// A new post: no contact and no row, clock 0, the default setting.
    ///
    /// # Errors
    ///
    /// Over 256 cells of a kind, or areas that do not fit the memory.
    pub fn new(sizes: Sizes) -> Result<Post, SizeError> {
        Post::over(Areas::fresh(sizes)?)
    }

    /// The post that some areas are, whatever their bytes: one that was stored as its [`areas`](Post::areas) goes on
    /// from there. Set the clock before any other call.
    ///
    /// # Errors
    ///
    /// The areas for answers do not fit the memory.
    pub fn over(areas: Areas) -> Result<Post, SizeError> {
        let actions = sys::actions(areas.sizes().tombstone_rows);
        Ok(Post {
            areas,
            replies: zeros(1, sys::REPLIES)?,
            actions: zeros(1, actions)?,
        })
    }

    /// All its areas, for a call.
    pub(crate) fn lent(&mut self) -> sys::Areas<'_> {
        let areas = &mut self.areas;
        sys::Areas {
            device: &mut areas.device,
            contacts: &mut areas.contacts,
            own: &mut areas.own,
            carried: &mut areas.carried,
            tombstones: &mut areas.tombstones,
            bad_tags: &mut areas.bad_tags,
            own_cells: &mut areas.own_cells,
            carried_cells: &mut areas.carried_cells,
            replies: &mut self.replies,
            actions: &mut self.actions,
        }
    }

    /// All that the post has, as bytes. A host that stores all of it between two calls needs to follow no action.
    pub fn areas(&self) -> &Areas {
        &self.areas
    }

    /// All that the post has, as bytes.
    pub fn into_areas(self) -> Areas {
        self.areas
    }
}

/// What the post has. Tables that no call left are listed too: as many rows as fit, each as its bytes say.
impl Post {
    /// The setting.
    pub fn setting(&self) -> Setting {
        self.areas.setting()
    }

    /// The clock in seconds.
    pub fn clock(&self) -> u64 {
        self.areas.clock()
    }

    /// The clock's minute, in which expiries are: at most 2^32 − 1.
    pub fn minute(&self) -> u32 {
        u32::try_from(self.clock() / 60).unwrap_or(u32::MAX)
    }

    /// The slot that the next held row gets. It need not be stored: above every stored slot is enough.
    pub fn next_slot(&self) -> Slot {
        Slot(self.areas.next_slot())
    }

    /// How many rows each table has.
    pub fn counts(&self) -> Counts {
        self.areas.counts()
    }

    /// The contacts in the order in which they were added, which is the order to add them in at the next start.
    pub fn contacts(&self) -> impl ExactSizeIterator<Item = Contact> + DoubleEndedIterator + Clone {
        self.areas.contacts()
    }

    /// How far a contact is trusted, if it is known.
    pub fn verification(&self, contact: ContactId) -> Option<Verification> {
        let found = self.contacts().find(|known| known.id == contact);
        found.map(|contact| contact.verification)
    }

    /// The own rows, by contact as added and message number.
    pub fn own_rows(&self) -> impl ExactSizeIterator<Item = OwnRow> + DoubleEndedIterator + Clone {
        self.areas.own_rows()
    }

    /// The own row of a message; none if it has ended, or never had one.
    pub fn own_row(&self, contact: ContactId, message: u32) -> Option<OwnRow> {
        self.own_rows()
            .find(|row| row.contact == contact && row.message == message)
    }

    /// The ciphertext of an own row, to be stored with it.
    pub fn own_ciphertext(&self, contact: ContactId, message: u32) -> Option<&[u8]> {
        let row = self.own_row(contact, message)?;
        Some(self.areas.own_ciphertext(&row))
    }

    /// The envelopes that are carried for others, by slot. Each new window is looked up here for envelopes that were
    /// taken before their key was awaited:
    ///
    /// ```
    /// # use goosetable::{Post, Sizes, Window};
    /// # let (post, window) = (Post::new(Sizes::default()).unwrap(), Window::EMPTY);
    /// for row in post.carried() {
    ///     if let Some(awaited) = window.row_of(row.envelope.header.tag) {
    ///         // Open row.envelope.ciphertext with the key that awaited.key is of.
    ///         # let _ = awaited;
    ///     }
    /// }
    /// ```
    ///
    /// If it opens, the host stores the message and calls [`tomb`](Post::tomb), the depositor as the peer: the row
    /// becomes its tombstone. If that is malformed or refused with 5, it calls [`opened`](Post::opened), and the row
    /// stays until it expires. If it does not open, it is left.
    pub fn carried(
        &self,
    ) -> impl ExactSizeIterator<Item = CarriedRow<'_>> + DoubleEndedIterator + Clone {
        self.areas.carried()
    }

    /// The carried row with a tag. Calls carry a tag once.
    pub fn carried_of(&self, tag: Tag) -> Option<CarriedRow<'_>> {
        self.carried().find(|row| row.envelope.header.tag == tag)
    }

    /// The first tombstone with a tag, by slot.
    pub fn tombstone_of(&self, tag: Tag) -> Option<Tombstone> {
        self.tombstones().find(|row| row.tag == tag)
    }

    /// The tombstones, by slot.
    pub fn tombstones(
        &self,
    ) -> impl ExactSizeIterator<Item = Tombstone> + DoubleEndedIterator + Clone {
        self.areas.tombstones()
    }

    /// The tags that are bad, each for one peer.
    pub fn bad_tags(&self) -> impl ExactSizeIterator<Item = BadTag> + DoubleEndedIterator + Clone {
        self.areas.bad_tags()
    }

    /// Bytes of an area for the file that [`save`](Post::save) writes.
    pub fn file_size(&self) -> usize {
        let sizes = self.areas.sizes();
        sys::file(sizes.carried_cells, sizes.tombstone_rows)
    }
}

/// What the host sets.
impl Post {
    /// Adds a contact or alters a known one in its place; there are 256 at most. Once it is done the host stores it,
    /// in the order of [`contacts`](Post::contacts), before it is used.
    ///
    /// # Errors
    ///
    /// - 13 [`LogRecord`](Refusal::LogRecord): a 257th contact.
    pub fn set_contact(
        &mut self,
        contact: ContactId,
        verification: Verification,
    ) -> Result<(), Refusal> {
        calls::contact(self, contact, verification)?;
        Ok(())
    }

    /// Changes the setting, for rows that are made from then on. Once it is done the host stores it.
    ///
    /// # Errors
    ///
    /// - 7 [`Configuration`](Refusal::Configuration): copies not 1 to 16, or a lifetime not 60 to 10,080.
    pub fn set_setting(&mut self, setting: Setting) -> Result<(), Refusal> {
        calls::setting(self, setting)?;
        Ok(())
    }

    /// Sets the clock, in Unix seconds: before any link is up and any maintenance, and then at least once a minute. It
    /// is not stored. One maintenance with a clock far ahead deletes every held row: test a new time before.
    pub fn set_clock(&mut self, seconds: u64) {
        calls::clock(self, seconds);
    }

    /// Opens an exchange for a peer when its link comes up, whatever the exchange was before.
    ///
    /// # Errors
    ///
    /// - 2 [`UnknownContact`](Refusal::UnknownContact): the peer is not known. The exchange stays as it is.
    pub fn fresh_exchange(&self, exchange: &mut Exchange, peer: ContactId) -> Result<(), Refusal> {
        calls::fresh_exchange(self, exchange, peer)?;
        Ok(())
    }
}

/// Envelopes.
impl Post {
    /// An envelope that a peer sends. One in the window is ours: the host opens it. Any other is answered by a code,
    /// and held from then on if the code is Accepted. The tests are Off, Invalid, Duplicate, Full, and the first that
    /// applies is the code.
    ///
    /// # Errors
    ///
    /// - 2 [`UnknownContact`](Refusal::UnknownContact): the peer, or a contact of a window row, is not known.
    /// - 4 [`NoCell`](Refusal::NoCell): the code would be Accepted, and all carried cells are used. It does not come
    ///   with 256 cells. No code is sent.
    /// - 6 [`NoSlot`](Refusal::NoSlot): the code would be Accepted, and the next slot is 2^64 − 1.
    pub fn envelope(
        &mut self,
        peer: ContactId,
        envelope: Envelope<'_>,
        window: &Window,
    ) -> Result<Received<'_>, Refusal> {
        let answer = calls::envelope(self, peer, &envelope, window)?;
        if answer.said == sys::OURS {
            return Ok(Received::Ours {
                contact: ContactId(answer.contact),
                generation: answer.generation,
                index: answer.idx,
            });
        }
        let Some(Reply::Custody { code, .. }) = Replies::new(self, answer.replies).next() else {
            unreachable!("an envelope that is not ours has a custody reply");
        };
        Ok(Received::Replied {
            code,
            actions: Actions::new(self, answer.actions),
        })
    }

    /// The envelope with a tag, for a peer that asks for it; where there is none nothing is sent. Its copies stay. For
    /// the contact of an own row there is none: the host sends it the queued message itself. It has no byte of
    /// ciphertext if its row has a cell that does not count.
    ///
    /// # Errors
    ///
    /// - 2 [`UnknownContact`](Refusal::UnknownContact): the peer is not known.
    pub fn fetch(&mut self, peer: ContactId, tag: Tag) -> Result<Option<Envelope<'_>>, Refusal> {
        let answer = calls::fetch(self, peer, tag)?;
        if answer.said == sys::MISSING {
            return Ok(None);
        }
        Ok(Some(fetched(self, answer.length)))
    }

    /// Makes the envelope of a message that the host has queued. There is none if the ciphertext is too long for
    /// couriers, or if there are 256 already: then the message waits for its contact alone.
    ///
    /// Own envelopes go to couriers alone. To its contact the envelope is not listed, not offered, and a fetch finds
    /// none: the host sends the queued message itself, over the session.
    ///
    /// No action is listed: the host stores the row's [`to_bytes`](OwnRow::to_bytes) and the ciphertext with its
    /// queued message. When the contact acknowledges the message directly, [`tomb`](Post::tomb) with that contact,
    /// the row's tag and its secret ends the row.
    ///
    /// # Errors
    ///
    /// - 2 [`UnknownContact`](Refusal::UnknownContact): the contact is not known.
    /// - 10 [`MessageNumberTaken`](Refusal::MessageNumberTaken): the contact has an own row with this number.
    /// - 11 [`OwnLength`](Refusal::OwnLength): the ciphertext less 16 is not 32, 64, 128, 256, 512, 1,024, 2,048 or
    ///   4,048 bytes.
    /// - 4 [`NoCell`](Refusal::NoCell): all own cells are used. It does not come with 256 cells.
    pub fn own_envelope(&mut self, message: OwnMessage<'_>) -> Result<Option<OwnRow>, Refusal> {
        let mut row = [0; sys::OWN_ROW];
        let answer = calls::own_envelope(self, &message, &mut row)?;
        Ok((answer.said != sys::NO_ENVELOPE).then(|| OwnRow::from_bytes(&row)))
    }
}

/// Exchanges.
impl Post {
    /// The prefixes of what may go to a peer, when its link comes up: of own rows, but for those whose contact is the
    /// peer, and of carried rows, tombstoned ones and any number of copies included. The host sends them in lists of at
    /// most 500, and an empty list last, also if there are none.
    ///
    /// # Errors
    ///
    /// - 2 [`UnknownContact`](Refusal::UnknownContact): the peer is not known.
    pub fn inventory_of_ours<'p>(
        &self,
        peer: ContactId,
        prefixes: &'p mut [Prefix; MAX_LISTED],
    ) -> Result<&'p [Prefix], Refusal> {
        let listed = calls::inventory_of_ours(self, peer, prefixes)?.length;
        Ok(&prefixes[..listed])
    }

    /// A list of prefixes from a peer. The empty one ends its inventory, and is answered with fetches of
    /// what is ours, tombs of what was delivered, and offers of what the peer has not. Rows are looked up in
    /// the window for the empty list alone, but all of it is tested with each: until then lend
    /// [`Window::EMPTY`]. Over 512 prefixes in all, or any list after the empty one, are malformed.
    ///
    /// Fetched is the tag of the first window row with a listed prefix, unless it is bad for the peer or has a
    /// tombstone; no other row is looked at then.
    ///
    /// Offered are rows with 2 copies or more whose tag has no tombstone and whose prefix the peer did not list, each
    /// with half of its copies, rounded down: own rows first, but for those whose contact is the peer, then carried
    /// ones by slot. [`Replies::searched`] has how many would be offered if no tag had a tombstone.
    ///
    /// # Errors
    ///
    /// - 2 [`UnknownContact`](Refusal::UnknownContact): the peer, or a contact of a window row, is not known.
    /// - 3 [`WrongExchange`](Refusal::WrongExchange): the exchange was opened for another contact or for none.
    pub fn inventory(
        &mut self,
        exchange: &mut Exchange,
        peer: ContactId,
        window: &Window,
        listed: &[Prefix],
    ) -> Result<Record<Replies<'_>>, Refusal> {
        let answer = calls::inventory(self, exchange, peer, window, listed)?;
        Ok(match answer.said {
            sys::MALFORMED => Record::Malformed,
            _ => Record::Taken(Replies::to_list(self, &answer)),
        })
    }

    /// The code with which a peer answers an offer, whatever it is. Accepted takes the copies that were handed over
    /// off their row; any code clears the offer. Nothing is sent.
    ///
    /// # Errors
    ///
    /// - 2 [`UnknownContact`](Refusal::UnknownContact): the peer is not known.
    /// - 3 [`WrongExchange`](Refusal::WrongExchange): the exchange was opened for another contact or for none.
    pub fn custody_code(
        &mut self,
        exchange: &mut Exchange,
        peer: ContactId,
        tag: Tag,
        code: Custody,
    ) -> Result<Actions<'_>, Refusal> {
        let answer = calls::custody_code(self, exchange, peer, tag, code)?;
        Ok(Actions::new(self, answer.actions))
    }
}

/// Deliveries.
impl Post {
    /// A tomb that a peer sends. If its secret is the one that the envelope's commitment is of, the carried row
    /// becomes a tombstone or the own row ends; a wrong secret is malformed. An unknown tag changes nothing. The
    /// tombstone has the row's expiry. Where a host makes the call by itself, any contact does as the peer.
    ///
    /// Where a tombstone is added at 1,024 or more, one of those that are there is deleted first: of least expiry,
    /// lowest slot among equals. Its [`Delete`](crate::Action::Delete) stands before the put of the new one, which of a carried row has
    /// the row's slot.
    ///
    /// # Errors
    ///
    /// - 2 [`UnknownContact`](Refusal::UnknownContact): the peer is not known.
    /// - 5 [`NoTombstoneRow`](Refusal::NoTombstoneRow): all rows are used. It does not come with 1,024 rows or more.
    ///   After maintenance there may be room.
    /// - 6 [`NoSlot`](Refusal::NoSlot): the tombstone of an own row needs a slot, and the next slot is 2^64 − 1.
    pub fn tomb(
        &mut self,
        peer: ContactId,
        tag: Tag,
        secret: Secret,
    ) -> Result<Record<Actions<'_>>, Refusal> {
        let answer = calls::tomb(self, peer, tag, secret)?;
        Ok(match answer.said {
            sys::MALFORMED => Record::Malformed,
            _ => Record::Taken(Actions::new(self, answer.actions)),
        })
    }

    /// The host opened an envelope that was ours: its tombstone is stored, and its tomb answers the peer. Before this
    /// call the host stores the message, the state of its keys and a note of these four values, and deletes the note
    /// with the actions: a start that finds a note makes the call again. Then the window is made anew. The tombstone's
    /// expiry is the lesser of the envelope's and the minute + the setting's lifetime.
    ///
    /// If [`carried_of`](Post::carried_of) has the tag, call [`tomb`](Post::tomb) with the secret first, and then this,
    /// whatever it answered: the carried row turns, and one tombstone stands for the tag. The other way round two do,
    /// and one row more is used, or at 1,024 tombstones another one goes.
    ///
    /// # Errors
    ///
    /// - 2 [`UnknownContact`](Refusal::UnknownContact): the peer is not known.
    /// - 5 [`NoTombstoneRow`](Refusal::NoTombstoneRow): all rows are used. It does not come with 1,024 rows or more.
    /// - 6 [`NoSlot`](Refusal::NoSlot): the tombstone needs a slot, and the next slot is 2^64 − 1.
    pub fn opened(
        &mut self,
        peer: ContactId,
        tag: Tag,
        secret: Secret,
        expiry_min: u32,
    ) -> Result<Opened<'_>, Refusal> {
        let answer = calls::opened(self, peer, tag, secret, expiry_min)?;
        Ok(Opened {
            replies: Replies::new(self, answer.replies),
            actions: Actions::new(self, answer.actions),
        })
    }

    /// The host could not open an envelope that was ours. The peer's record is malformed, and the host drops the session
    /// as with [`Record::Malformed`]; `Ok` says that the bad tag is noted. It is no longer fetched from this peer. That
    /// it is offered again is not stopped: a host may look in [`bad_tags`](Post::bad_tags) before it hands an envelope
    /// to the post, and pass that record over.
    ///
    /// # Errors
    ///
    /// - 2 [`UnknownContact`](Refusal::UnknownContact): the peer is not known.
    /// - 9 [`NoBadTagRow`](Refusal::NoBadTagRow): the tag is not yet bad for the peer, and no row is left. The session
    ///   is dropped all the same.
    pub fn failed(&mut self, peer: ContactId, tag: Tag) -> Result<(), Refusal> {
        calls::failed(self, peer, tag)?;
        Ok(())
    }

    /// Stores a tombstone that the host knows of, with the expiry that it is given, unless the tag has one: of a message
    /// that came over the session itself, so that a courier's copy of it is turned away. At 1,024 or more one of least
    /// expiry, lowest slot among equals, is deleted first.
    ///
    /// # Errors
    ///
    /// - 5 [`NoTombstoneRow`](Refusal::NoTombstoneRow): all rows are used. It does not come with 1,024 rows or more.
    /// - 6 [`NoSlot`](Refusal::NoSlot): the tombstone needs a slot, and the next slot is 2^64 − 1.
    pub fn stored_tombstone(
        &mut self,
        tag: Tag,
        secret: Secret,
        expiry_min: u32,
    ) -> Result<Actions<'_>, Refusal> {
        let answer = calls::stored_tombstone(self, tag, secret, expiry_min)?;
        Ok(Actions::new(self, answer.actions))
    }
}

/// Upkeep, storing and starting again.
impl Post {
    /// Renews own rows that expired once, drops those that expired twice, and deletes the held rows that
    /// have expired: whenever a new minute began, and once at a start.
    ///
    /// # Errors
    ///
    /// None that this version knows: its one number, 1, is of an area that a post has whole.
    pub fn maintenance(&mut self) -> Result<Actions<'_>, Refusal> {
        let answer = calls::maintenance(self)?;
        Ok(Actions::new(self, answer.actions))
    }

    /// The bytes under which the row of a slot is stored for an [`Action::Put`](crate::Action::Put), at the front of
    /// an area; none if there is no such row.
    pub fn row_blob<'b>(&self, slot: Slot, blob: &'b mut [u8; BLOB]) -> Option<&'b [u8]> {
        let answer = calls::row_blob(self, slot, blob);
        (answer.said != sys::MISSING).then_some(&blob[..answer.length])
    }

    /// Writes all held rows and the next slot to an area of [`file_size`](Post::file_size) bytes; the file
    /// is the front of it. Contacts, own rows and the setting are not in it.
    ///
    /// In areas that no call left there may be more carried rows than cells that count: the first so many are saved,
    /// and the others are not.
    ///
    /// # Errors
    ///
    /// - 1 [`ShortArea`](Refusal::ShortArea): the area is shorter than that.
    pub fn save<'f>(&self, file: &'f mut [u8]) -> Result<&'f [u8], Refusal> {
        let length = calls::save(self, file)?.length;
        Ok(&file[..length])
    }

    /// Replaces all held rows and the next slot by those of a file, that of [`save`](Post::save) or a
    /// [`SavedFile`](crate::SavedFile) of the rows that were stored by actions. Contacts are added before. Where slots
    /// do not rise along the file the time grows with the square of the rows.
    ///
    /// # Errors
    ///
    /// The post stays as it is. One wrong record refuses the whole file:
    /// [`SavedFile::load_good`](crate::SavedFile::load_good) leaves it out and tells it.
    ///
    /// - 8 [`SavedFile`](Refusal::SavedFile): mark, length or place of `HN` wrong, a blob refused, a slot twice or not
    ///   below the next slot, a carried tag twice, an unknown depositor, over 256 carried rows or 32 of one depositor.
    /// - 4 [`NoCell`](Refusal::NoCell): it has more carried rows than there are cells.
    /// - 5 [`NoTombstoneRow`](Refusal::NoTombstoneRow): it has more tombstones than there are rows.
    pub fn load(&mut self, file: &[u8]) -> Result<(), Refusal> {
        calls::load(self, file)?;
        Ok(())
    }

    /// Puts an own row back at a start, with its copies, expiry and renewal as they were stored: after the contacts,
    /// in any order. No call of the library does this, and none of its promises speaks of it: the row is written as
    /// docs/HOST.md says, in its place by contact as added and message number, with the first free cell.
    ///
    /// # Errors
    ///
    /// The post stays as it is.
    ///
    /// - 2 [`UnknownContact`](Refusal::UnknownContact): the row's contact is not known.
    /// - 10 [`MessageNumberTaken`](Refusal::MessageNumberTaken): the contact has an own row with this number.
    /// - 11 [`OwnLength`](Refusal::OwnLength): the ciphertext has not the row's length, or one that no envelope has.
    /// - 4 [`NoCell`](Refusal::NoCell): all own cells are used.
    pub fn restore_own_row(&mut self, row: OwnRow, ciphertext: &[u8]) -> Result<(), Refusal> {
        self.areas.restore_own_row(row, ciphertext)
    }
}

/// The held rows on a technicians' screen.
impl Post {
    /// A page, counted from 0, as text at the front of an area: a line `HELD`, then a line for each of up to 19 held
    /// rows, carried ones and tombstones by slot, expired ones too until maintenance takes them. A page past the last
    /// is the line `HELD` alone. Each line has 80 characters and ends in `\n`, so that [`str::lines`] has them.
    ///
    /// Of a row there are its slot, `C` (carried) or `T` (tombstone), the [prefix](Tag::prefix) of its tag in hex, the
    /// minutes that are left or `past`, and of a carried row its copies and depositor:
    ///
    /// ```
    /// use goosetable::{PAGE, Post, Secret, Sizes, Tag};
    ///
    /// # fn main() -> Result<(), Box<dyn std::error::Error>> {
    /// let mut post = Post::new(Sizes::default())?;
    /// let _ = post.stored_tombstone(Tag([0xa7; 16]), Secret([0; 16]), 90)?;
    /// let mut area = [0; PAGE];
    /// for page in 0..post.pages() {
    ///     for row in post.page(page, &mut area).lines().skip(1) {
    ///         assert_eq!(row.trim(), "0 T a7a7a7a7a7a7a7a7         90");
    ///     }
    /// }
    /// # Ok(())
    /// # }
    /// ```
    pub fn page<'a>(&self, page: u64, area: &'a mut [u8; PAGE]) -> &'a str {
        let length = calls::page(self, page, area);
        str::from_utf8(&area[..length]).expect("a page has digits, letters and blanks")
    }

    /// How many pages have rows, 19 on each but the last: none if no row is held, and then page 0 is its heading.
    pub fn pages(&self) -> u64 {
        let counts = self.counts();
        (counts.carried + counts.tombstones).div_ceil(PAGE_ROWS) as u64
    }
}

impl fmt::Debug for Post {
    fn fmt(&self, f: &mut fmt::Formatter<'_>) -> fmt::Result {
        f.debug_struct("Post")
            .field("setting", &self.setting())
            .field("clock", &self.clock())
            .field("counts", &self.counts())
            .field("next_slot", &self.next_slot())
            .finish_non_exhaustive()
    }
}

#[cfg(test)]
mod tests {
    use super::*;

    fn bytes(sizes: Sizes) -> usize {
        let post = Post::new(sizes).unwrap();
        let parts: usize = post.areas.parts().map(<[u8]>::len).sum();
        parts + post.replies.len() + post.actions.len()
    }

    /// The numbers of README's section on memory.
    #[test]
    fn a_post_has_so_many_bytes() {
        let sizes = |tombstone_rows, bad_tag_rows, own_cells, carried_cells| Sizes {
            carried_cells,
            own_cells,
            tombstone_rows,
            bad_tag_rows,
        };
        let least = bytes(sizes(0, 0, 0, 0));
        assert_eq!(least, 98_876);
        assert_eq!(bytes(sizes(1, 0, 0, 0)), least + 57);
        assert_eq!(bytes(sizes(0, 1, 0, 0)), least + 24);
        assert_eq!(bytes(sizes(0, 0, 1, 1)), least + 2 * 2064);
        assert_eq!(bytes(Sizes::default()), 1_215_548);
        assert_eq!(bytes(sizes(1024, 64, 0, 256)), 687_164);
        let exchange = Exchange::closed();
        let allocated = exchange.prefixes.as_flattened().len() + exchange.offers.len();
        assert_eq!((allocated, exchange.state.len()), (12_800, 26));
    }
}

//! The areas of a post as a host lends them, and each call with them: the one place where areas go to the library's functions.
//!
//! Each call is sound for the same reason. An area behind `&mut` overlaps no other, a length that is passed is the area's, and no pointer of a
//! reference is null. More is not asked: any bytes will do, and nothing is kept after a call.

use crate::*;

/// What calls read: the device, contacts, rows and ciphertexts of a post.
#[derive(Clone, Copy)]
pub struct Tables<'a> {
    pub device: &'a [u8; DEVICE],
    pub contacts: &'a [u8; CONTACTS],
    pub own: &'a [u8; OWN],
    pub carried: &'a [u8; CARRIED],
    pub tombstones: &'a [u8],
    pub bad_tags: &'a [u8],
    pub own_cells: &'a [u8],
    pub carried_cells: &'a [u8],
}

/// All areas of a post, those of replies and actions too, lent to be changed.
pub struct Areas<'a> {
    pub device: &'a mut [u8; DEVICE],
    pub contacts: &'a mut [u8; CONTACTS],
    pub own: &'a mut [u8; OWN],
    pub carried: &'a mut [u8; CARRIED],
    pub tombstones: &'a mut [u8],
    pub bad_tags: &'a mut [u8],
    pub own_cells: &'a mut [u8],
    pub carried_cells: &'a mut [u8],
    pub replies: &'a mut [u8],
    pub actions: &'a mut [u8],
}

/// An exchange, and the two areas beside it.
pub struct Session<'a> {
    pub exchange: &'a mut [u8; EXCHANGE],
    pub prefixes: &'a mut [u8],
    pub offers: &'a mut [u8],
}

/// An envelope as a peer sends it.
#[derive(Clone, Copy)]
pub struct Envelope<'a> {
    pub tag: &'a [u8; TAG],
    pub commitment: &'a [u8; TAG],
    pub expiry: u32,
    pub copies: u8,
    pub ciphertext: &'a [u8],
}

/// A message that the host has queued: what its own envelope is made of.
#[derive(Clone, Copy)]
pub struct OwnEnvelope<'a> {
    pub contact: u64,
    pub msgno: u32,
    pub route_key: &'a [u8; KEY],
    pub dir: u8,
    pub generation: u8,
    pub idx: u32,
    pub secret: &'a [u8; TAG],
    pub ciphertext: &'a [u8],
}

/// Calls that write no area of the post, nor its replies or actions.
impl Tables<'_> {
    #[inline]
    pub fn fresh_exchange(&self, session: &mut Session<'_>, peer: u64) -> Answer {
        unsafe {
            goosetable_fresh_exchange(
                self.device,
                session.exchange,
                peer,
                self.contacts,
                session.prefixes.as_ptr(),
                session.prefixes.len(),
                session.offers.as_ptr(),
                session.offers.len(),
            )
        }
    }

    #[inline]
    pub fn inventory_of_ours(&self, peer: u64, prefixes: &mut [u8]) -> Answer {
        unsafe {
            goosetable_inventory_of_ours(
                self.device,
                peer,
                self.contacts,
                self.own,
                self.carried,
                prefixes.as_mut_ptr(),
                prefixes.len(),
            )
        }
    }

    #[inline]
    pub fn row_blob(&self, slot: u64, blob: &mut [u8]) -> Answer {
        unsafe {
            goosetable_row_blob(
                self.device,
                slot,
                self.carried,
                self.tombstones.as_ptr(),
                self.tombstones.len(),
                self.carried_cells.as_ptr(),
                self.carried_cells.len(),
                blob.as_mut_ptr(),
                blob.len(),
            )
        }
    }

    #[inline]
    pub fn save(&self, file: &mut [u8]) -> Answer {
        unsafe {
            goosetable_save(
                self.device,
                self.carried,
                self.tombstones.as_ptr(),
                self.tombstones.len(),
                self.carried_cells.as_ptr(),
                self.carried_cells.len(),
                file.as_mut_ptr(),
                file.len(),
            )
        }
    }

    #[inline]
    pub fn page(&self, page: u64, area: &mut [u8]) -> Answer {
        unsafe {
            goosetable_page(
                self.device,
                page,
                self.carried,
                self.tombstones.as_ptr(),
                self.tombstones.len(),
                area.as_mut_ptr(),
                area.len(),
            )
        }
    }
}

/// What the host sets, and its upkeep.
impl Areas<'_> {
    /// The same areas to be read.
    #[inline]
    pub fn tables(&self) -> Tables<'_> {
        Tables {
            device: self.device,
            contacts: self.contacts,
            own: self.own,
            carried: self.carried,
            tombstones: self.tombstones,
            bad_tags: self.bad_tags,
            own_cells: self.own_cells,
            carried_cells: self.carried_cells,
        }
    }

    #[inline]
    pub fn clock(&mut self, seconds: u64) -> Answer {
        unsafe { goosetable_clock(self.device, seconds) }
    }

    #[inline]
    pub fn setting(&mut self, enabled: u8, copies: u8, lifetime: u16) -> Answer {
        unsafe { goosetable_setting(self.device, enabled, copies, lifetime) }
    }

    #[inline]
    pub fn contact(&mut self, id: u64, verification: u8) -> Answer {
        unsafe { goosetable_contact(self.device, id, verification, self.contacts) }
    }

    #[inline]
    pub fn maintenance(&mut self) -> Answer {
        unsafe {
            goosetable_maintenance(
                self.device,
                self.own,
                self.carried,
                self.tombstones.as_mut_ptr(),
                self.tombstones.len(),
                self.actions.as_mut_ptr(),
                self.actions.len(),
            )
        }
    }

    #[inline]
    pub fn load(&mut self, file: &[u8]) -> Answer {
        unsafe {
            goosetable_load(
                self.device,
                self.contacts,
                self.carried,
                self.tombstones.as_mut_ptr(),
                self.tombstones.len(),
                self.carried_cells.as_mut_ptr(),
                self.carried_cells.len(),
                file.as_ptr(),
                file.len(),
            )
        }
    }
}

/// Envelopes and exchanges.
impl Areas<'_> {
    #[inline]
    pub fn envelope(&mut self, peer: u64, envelope: &Envelope<'_>, window: &[u8]) -> Answer {
        unsafe {
            goosetable_envelope(
                self.device,
                peer,
                envelope.tag,
                envelope.commitment,
                envelope.expiry,
                envelope.copies,
                envelope.ciphertext.as_ptr(),
                envelope.ciphertext.len(),
                window.as_ptr(),
                window.len(),
                self.contacts,
                self.own,
                self.carried,
                self.tombstones.as_ptr(),
                self.tombstones.len(),
                self.carried_cells.as_mut_ptr(),
                self.carried_cells.len(),
                self.replies.as_mut_ptr(),
                self.replies.len(),
                self.actions.as_mut_ptr(),
                self.actions.len(),
            )
        }
    }

    #[inline]
    pub fn fetch(&mut self, peer: u64, tag: &[u8; TAG]) -> Answer {
        unsafe {
            goosetable_fetch(
                self.device,
                peer,
                tag,
                self.contacts,
                self.own,
                self.carried,
                self.own_cells.as_ptr(),
                self.own_cells.len(),
                self.carried_cells.as_ptr(),
                self.carried_cells.len(),
                self.replies.as_mut_ptr(),
                self.replies.len(),
            )
        }
    }

    /// The new own row also goes to `row`.
    #[inline]
    pub fn own_envelope(&mut self, new: &OwnEnvelope<'_>, row: &mut [u8; OWN_ROW]) -> Answer {
        unsafe {
            goosetable_own_envelope(
                self.device,
                new.contact,
                new.msgno,
                new.route_key,
                new.dir,
                new.generation,
                new.idx,
                new.secret,
                new.ciphertext.as_ptr(),
                new.ciphertext.len(),
                self.contacts,
                self.own,
                self.own_cells.as_mut_ptr(),
                self.own_cells.len(),
                row,
            )
        }
    }

    #[inline]
    pub fn inventory(
        &mut self,
        session: &mut Session<'_>,
        peer: u64,
        window: &[u8],
        listed: &[u8],
    ) -> Answer {
        unsafe {
            goosetable_inventory(
                self.device,
                session.exchange,
                peer,
                self.contacts,
                self.own,
                self.carried,
                self.tombstones.as_ptr(),
                self.tombstones.len(),
                self.bad_tags.as_ptr(),
                self.bad_tags.len(),
                window.as_ptr(),
                window.len(),
                listed.as_ptr(),
                listed.len(),
                session.prefixes.as_mut_ptr(),
                session.prefixes.len(),
                session.offers.as_mut_ptr(),
                session.offers.len(),
                self.replies.as_mut_ptr(),
                self.replies.len(),
            )
        }
    }

    #[inline]
    pub fn custody_code(
        &mut self,
        session: &mut Session<'_>,
        peer: u64,
        tag: &[u8; TAG],
        code: u8,
    ) -> Answer {
        unsafe {
            goosetable_custody_code(
                self.device,
                session.exchange,
                peer,
                tag,
                code,
                self.contacts,
                self.own,
                self.carried,
                self.tombstones.as_ptr(),
                self.tombstones.len(),
                session.prefixes.as_ptr(),
                session.prefixes.len(),
                session.offers.as_mut_ptr(),
                session.offers.len(),
                self.actions.as_mut_ptr(),
                self.actions.len(),
            )
        }
    }
}

/// Tombstones.
impl Areas<'_> {
    #[inline]
    pub fn stored_tombstone(&mut self, tag: &[u8; TAG], secret: &[u8; TAG], expiry: u32) -> Answer {
        unsafe {
            goosetable_stored_tombstone(
                self.device,
                tag,
                secret,
                expiry,
                self.tombstones.as_mut_ptr(),
                self.tombstones.len(),
                self.actions.as_mut_ptr(),
                self.actions.len(),
            )
        }
    }

    #[inline]
    pub fn tomb(&mut self, peer: u64, tag: &[u8; TAG], secret: &[u8; TAG]) -> Answer {
        unsafe {
            goosetable_tomb(
                self.device,
                peer,
                tag,
                secret,
                self.contacts,
                self.own,
                self.carried,
                self.tombstones.as_mut_ptr(),
                self.tombstones.len(),
                self.actions.as_mut_ptr(),
                self.actions.len(),
            )
        }
    }

    #[inline]
    pub fn opened(
        &mut self,
        peer: u64,
        tag: &[u8; TAG],
        secret: &[u8; TAG],
        expiry: u32,
    ) -> Answer {
        unsafe {
            goosetable_opened(
                self.device,
                peer,
                tag,
                secret,
                expiry,
                self.contacts,
                self.tombstones.as_mut_ptr(),
                self.tombstones.len(),
                self.replies.as_mut_ptr(),
                self.replies.len(),
                self.actions.as_mut_ptr(),
                self.actions.len(),
            )
        }
    }

    #[inline]
    pub fn failed(&mut self, peer: u64, tag: &[u8; TAG]) -> Answer {
        unsafe {
            goosetable_failed(
                self.device,
                peer,
                tag,
                self.contacts,
                self.bad_tags.as_mut_ptr(),
                self.bad_tags.len(),
            )
        }
    }
}

/// A fresh device, over any bytes.
#[inline]
pub fn fresh(device: &mut [u8; DEVICE]) {
    unsafe { goosetable_fresh(device) }
}

/// The keys that a receiver could still derive, as key rows.
#[inline]
pub fn window(skipped: &[u8], chains: &[u8], answer: &mut [u8]) -> Answer {
    unsafe {
        goosetable_window(
            skipped.as_ptr(),
            skipped.len(),
            chains.as_ptr(),
            chains.len(),
            answer.as_mut_ptr(),
            answer.len(),
        )
    }
}

/// The tag of a message key.
#[inline]
pub fn route_tag(
    route_key: &[u8; KEY],
    dir: u8,
    generation: u8,
    idx: u32,
    tag: &mut [u8; TAG],
) -> Answer {
    unsafe { goosetable_route_tag(route_key, dir, generation, idx, tag) }
}

/// The secret of a message.
#[inline]
pub fn delivered(message_key: &[u8; KEY], secret: &mut [u8; TAG]) {
    unsafe { goosetable_delivered(message_key, secret) }
}

/// The commitment that a secret opens.
#[inline]
pub fn commitment(secret: &[u8; TAG], commitment: &mut [u8; TAG]) {
    unsafe { goosetable_commitment(secret, commitment) }
}

/// The held row that a blob is of.
#[inline]
pub fn row_read(blob: &[u8]) -> Row {
    unsafe { goosetable_row_read(blob.as_ptr(), blob.len()) }
}

/// The version of the library that was linked: major * 10,000 + minor * 100 + patch.
#[inline]
pub fn version() -> u32 {
    unsafe { goosetable_version_0_2() }
}

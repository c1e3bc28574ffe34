//! A state written into fresh areas, all of it: rows in their order, ciphertexts in the first cells.

use crate::saved::Laid;
use crate::state::Change;
use crate::{Areas, BadTag, ContactRow, Offer, Own};
use post::{Exchange, OwnRow, Sizes, State, Verification};

/// A call that has no exchange.
const NO_SESSION: usize = usize::MAX;

fn verification(verification: Verification) -> u8 {
    match verification {
        Verification::Unverified => 0,
        Verification::Verified => 1,
        Verification::Compromised => 2,
    }
}

fn own_row(cell: u16, row: &OwnRow) -> Own {
    Own {
        contact: row.contact,
        message: row.message,
        tag: row.tag,
        secret: row.secret,
        expiry: row.expiry,
        copies: row.copies,
        renewed: row.renewed.into(),
        len: row.ciphertext.len() as u16,
        cell,
    }
}

/// An exchange.
fn session(exchange: &Exchange) -> Change {
    let offer = |(tag, copies): (&post::Tag, &u8)| Offer {
        tag: *tag,
        copies: *copies,
    };
    Change {
        peer: exchange.peer,
        complete: Some(exchange.complete),
        listed: Some(exchange.listed.clone()),
        offered: Some(exchange.offered.iter().map(offer).collect()),
        ..Change::default()
    }
}

impl Areas {
    pub(crate) fn holding(sizes: &Sizes, state: &State) -> Self {
        let mut areas = Self::fresh(sizes);
        let contact = |contact: &post::Contact| ContactRow {
            id: contact.id,
            verification: verification(contact.verification),
        };
        let bad = |(peer, tag): &(u64, post::Tag)| BadTag { peer: *peer, tag: *tag };
        let held = state.held.iter().map(|row| (row.slot, row.held.clone()));
        let change = Change {
            clock: Some(state.clock),
            setting: Some(state.setting),
            contacts: Some(state.contacts.iter().map(contact).collect()),
            own: Some((0..).zip(&state.own).map(|(cell, row)| own_row(cell, row)).collect()),
            bad_tags: Some(state.bad.iter().map(bad).collect()),
            next_slot: Some(state.next_slot),
            ..Laid::of(held).change()
        };
        areas.store(NO_SESSION, &change);
        for (cell, row) in (0..).zip(&state.own) {
            let own_cell = Some((cell, row.ciphertext.to_vec()));
            areas.store(
                NO_SESSION,
                &Change {
                    own_cell,
                    ..Change::default()
                },
            );
        }
        for (place, exchange) in state.exchanges.iter().enumerate() {
            areas.store(place, &session(exchange));
        }
        areas
    }
}

//! Between the source's types and those of `post`.

use super::{Action, ContactId, Verification};
use crate::chain;
use crate::courier;
use crate::data::CourierRecord;
use crate::state::{Held, Outgoing, OwnEnvelope, Tombstone};

pub(crate) fn verification_in(verification: post::Verification) -> Verification {
    match verification {
        post::Verification::Unverified => Verification::Unverified,
        post::Verification::Verified => Verification::Verified,
        post::Verification::Compromised => Verification::Compromised,
    }
}

pub(crate) fn verification_out(verification: Verification) -> post::Verification {
    match verification {
        Verification::Unverified => post::Verification::Unverified,
        Verification::Verified => post::Verification::Verified,
        Verification::Compromised => post::Verification::Compromised,
    }
}

pub(crate) fn dir_in(dir: post::Dir) -> chain::Dir {
    match dir {
        post::Dir::I => chain::Dir::I,
        post::Dir::R => chain::Dir::R,
    }
}

pub(crate) fn dir_out(dir: chain::Dir) -> post::Dir {
    match dir {
        chain::Dir::I => post::Dir::I,
        chain::Dir::R => post::Dir::R,
    }
}

pub(crate) fn envelope_in(envelope: &post::Envelope) -> courier::Envelope {
    courier::Envelope {
        tag: envelope.tag,
        c: envelope.commitment,
        expiry_min: envelope.expiry,
        copies: envelope.copies,
        ct: envelope.ciphertext.0.clone(),
    }
}

pub(crate) fn envelope_out(envelope: &courier::Envelope) -> post::Envelope {
    post::Envelope {
        tag: envelope.tag,
        commitment: envelope.c,
        expiry: envelope.expiry_min,
        copies: envelope.copies,
        ciphertext: envelope.ct.clone().into(),
    }
}

pub(crate) fn held_in(held: &post::Held) -> Held {
    match held {
        post::Held::Carried { depositor, envelope } => Held::Carried {
            depositor: ContactId(*depositor),
            envelope: envelope_in(envelope),
        },
        post::Held::Tombstone { tag, secret, expiry } => Held::Tombstone(Tombstone {
            tag: *tag,
            s: *secret,
            expiry_min: *expiry,
        }),
    }
}

pub(crate) fn held_out(held: &Held) -> post::Held {
    match held {
        Held::Carried { depositor, envelope } => post::Held::Carried {
            depositor: depositor.0,
            envelope: envelope_out(envelope),
        },
        Held::Tombstone(tombstone) => post::Held::Tombstone {
            tag: tombstone.tag,
            secret: tombstone.s,
            expiry: tombstone.expiry_min,
        },
    }
}

pub(crate) fn own_out(contact: u64, message: u32, outgoing: &Outgoing, own: &OwnEnvelope) -> post::OwnRow {
    post::OwnRow {
        contact,
        message,
        tag: own.tag,
        secret: *own.s,
        expiry: own.expiry_min,
        copies: own.copies,
        renewed: own.renewed,
        ciphertext: outgoing.queued.ct.clone().into(),
    }
}

pub(crate) fn reply_out(record: CourierRecord) -> post::Reply {
    match record {
        CourierRecord::Fetch(tag) => post::Reply::Fetch(tag),
        CourierRecord::Envelope(envelope) => post::Reply::Envelope(envelope_out(&envelope)),
        CourierRecord::Custody { tag, code } => {
            let code = post::Custody::of(code as u8).expect("five codes");
            post::Reply::Custody(tag, code)
        }
        CourierRecord::Tomb { tag, s } => post::Reply::Tomb(tag, s),
        CourierRecord::Inventory(_) => unreachable!("no inventory is a reply"),
    }
}

/// `None` for a contact row.
pub(crate) fn action_out(action: &Action) -> Option<post::Action> {
    match action {
        Action::PersistContact { .. } => None,
        Action::PutQueued { contact, msgno, .. } => Some(post::Action::OwnPut {
            contact: contact.0,
            message: *msgno,
        }),
        Action::PutCourier { slot, .. } => Some(post::Action::Put { slot: *slot }),
        Action::DeleteCourier { slot } => Some(post::Action::Delete { slot: *slot }),
    }
}

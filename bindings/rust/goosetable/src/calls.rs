//! The library's calls on the areas of a post, each answered or refused.

use crate::{
    BLOB, Commitment, ContactId, Custody, Envelope, Exchange, MAX_LISTED, MessageKey, OwnMessage,
    PAGE, Post, Prefix, Refusal, Secret, Setting, Slot, Tag, Verification, Window,
};
use goosetable_sys::{self as sys, Answer};

type Said = Result<Answer, Refusal>;

/// The answer of a call that is done. Every other number refuses it, one that this crate does not know too.
fn said(answer: Answer) -> Said {
    said_or(sys::DONE, answer)
}

/// The answer of a call that is done or says one thing more. Every other number refuses it.
fn said_or(more: u8, answer: Answer) -> Said {
    match answer.said {
        sys::DONE => Ok(answer),
        number if number == more => Ok(answer),
        number => Err(Refusal::of(number)),
    }
}

/// The answer of a call that nothing refuses as it is made here.
fn never_refused(said: Said) -> Answer {
    said.unwrap_or_else(|refusal| unreachable!("{refusal}"))
}

/// The library's version, as [`library_version`](crate::library_version) answers it.
pub(crate) fn version() -> u32 {
    sys::version()
}

pub(crate) fn fresh() -> [u8; sys::DEVICE] {
    let mut device = [0; sys::DEVICE];
    sys::fresh(&mut device);
    device
}

pub(crate) fn clock(post: &mut Post, seconds: u64) {
    never_refused(said(post.lent().clock(seconds)));
}

pub(crate) fn setting(post: &mut Post, to: Setting) -> Said {
    let enabled = u8::from(to.enabled);
    said(post.lent().setting(enabled, to.copies, to.lifetime_min))
}

pub(crate) fn contact(post: &mut Post, id: ContactId, verification: Verification) -> Said {
    said(post.lent().contact(id.0, verification as u8))
}

pub(crate) fn fresh_exchange(post: &Post, exchange: &mut Exchange, peer: ContactId) -> Said {
    let tables = post.areas.tables();
    said(tables.fresh_exchange(&mut exchange.lent(), peer.0))
}

pub(crate) fn envelope(
    post: &mut Post,
    peer: ContactId,
    envelope: &Envelope<'_>,
    window: &Window,
) -> Said {
    let head = &envelope.header;
    let sent = sys::Envelope {
        tag: &head.tag.0,
        commitment: &head.commitment.0,
        expiry: head.expiry_min,
        copies: head.copies,
        ciphertext: envelope.ciphertext,
    };
    let answer = post.lent().envelope(peer.0, &sent, window.bytes());
    said_or(sys::OURS, answer)
}

pub(crate) fn fetch(post: &mut Post, peer: ContactId, tag: Tag) -> Said {
    said_or(sys::MISSING, post.lent().fetch(peer.0, &tag.0))
}

pub(crate) fn own_envelope(
    post: &mut Post,
    message: &OwnMessage<'_>,
    row: &mut [u8; sys::OWN_ROW],
) -> Said {
    let new = sys::OwnEnvelope {
        contact: message.contact.0,
        msgno: message.message,
        route_key: message.route_key,
        dir: message.key.direction.label(),
        generation: message.key.generation,
        idx: message.key.index,
        secret: &message.secret.0,
        ciphertext: message.ciphertext,
    };
    said_or(sys::NO_ENVELOPE, post.lent().own_envelope(&new, row))
}

pub(crate) fn inventory_of_ours(
    post: &Post,
    peer: ContactId,
    prefixes: &mut [Prefix; MAX_LISTED],
) -> Said {
    let tables = post.areas.tables();
    said(tables.inventory_of_ours(peer.0, prefixes.as_flattened_mut()))
}

pub(crate) fn inventory(
    post: &mut Post,
    exchange: &mut Exchange,
    peer: ContactId,
    window: &Window,
    listed: &[Prefix],
) -> Said {
    let (window, listed) = (window.bytes(), listed.as_flattened());
    let session = &mut exchange.lent();
    let answer = post.lent().inventory(session, peer.0, window, listed);
    said_or(sys::MALFORMED, answer)
}

pub(crate) fn custody_code(
    post: &mut Post,
    exchange: &mut Exchange,
    peer: ContactId,
    tag: Tag,
    code: Custody,
) -> Said {
    let session = &mut exchange.lent();
    let mut areas = post.lent();
    said(areas.custody_code(session, peer.0, &tag.0, code.code()))
}

pub(crate) fn stored_tombstone(post: &mut Post, tag: Tag, secret: Secret, expiry: u32) -> Said {
    said(post.lent().stored_tombstone(&tag.0, &secret.0, expiry))
}

pub(crate) fn tomb(post: &mut Post, peer: ContactId, tag: Tag, secret: Secret) -> Said {
    let answer = post.lent().tomb(peer.0, &tag.0, &secret.0);
    said_or(sys::MALFORMED, answer)
}

pub(crate) fn opened(
    post: &mut Post,
    peer: ContactId,
    tag: Tag,
    secret: Secret,
    expiry: u32,
) -> Said {
    said(post.lent().opened(peer.0, &tag.0, &secret.0, expiry))
}

pub(crate) fn failed(post: &mut Post, peer: ContactId, tag: Tag) -> Said {
    said_or(sys::MALFORMED, post.lent().failed(peer.0, &tag.0))
}

pub(crate) fn maintenance(post: &mut Post) -> Said {
    said(post.lent().maintenance())
}

pub(crate) fn row_blob(post: &Post, slot: Slot, blob: &mut [u8; BLOB]) -> Answer {
    let answer = post.areas.tables().row_blob(slot.0, blob);
    never_refused(said_or(sys::MISSING, answer))
}

pub(crate) fn save(post: &Post, file: &mut [u8]) -> Said {
    said(post.areas.tables().save(file))
}

/// The bytes of a screen page, in front of its area.
pub(crate) fn page(post: &Post, page: u64, area: &mut [u8; PAGE]) -> usize {
    never_refused(said(post.areas.tables().page(page, area))).length
}

pub(crate) fn load(post: &mut Post, file: &[u8]) -> Said {
    said(post.lent().load(file))
}

pub(crate) fn window(skipped: &[u8], chains: &[u8], keys: &mut [u8; sys::KEYS]) -> Said {
    said(sys::window(skipped, chains, keys))
}

pub(crate) fn route_tag(key: &[u8; 32], at: MessageKey) -> Tag {
    let mut tag = [0; 16];
    let dir = at.direction.label();
    let answer = sys::route_tag(key, dir, at.generation, at.index, &mut tag);
    never_refused(said(answer));
    Tag(tag)
}

pub(crate) fn delivered(key: &[u8; 32]) -> Secret {
    let mut secret = [0; 16];
    sys::delivered(key, &mut secret);
    Secret(secret)
}

pub(crate) fn commitment(secret: &Secret) -> Commitment {
    let mut commitment = [0; 16];
    sys::commitment(&secret.0, &mut commitment);
    Commitment(commitment)
}

pub(crate) fn row_read(blob: &[u8]) -> sys::Row {
    sys::row_read(blob)
}

#[cfg(test)]
mod tests {
    use super::*;

    fn answer(said: u8) -> Answer {
        Answer {
            said,
            ..Answer::default()
        }
    }

    #[test]
    fn a_number_that_is_not_known_is_a_refusal() {
        assert!(said(answer(sys::DONE)).is_ok());
        for number in 1..=u8::MAX {
            let refusal = said(answer(number)).unwrap_err();
            assert_eq!(refusal.number(), number);
            assert_eq!(matches!(refusal, Refusal::Other { .. }), 13 < number);
        }
    }

    #[test]
    fn a_call_may_say_one_thing_more_and_no_other() {
        for more in [sys::MALFORMED, sys::OURS, sys::MISSING, sys::NO_ENVELOPE] {
            let passed = |number: &u8| said_or(more, answer(*number)).is_ok();
            assert!((0..=u8::MAX).filter(passed).eq([sys::DONE, more]));
        }
    }
}

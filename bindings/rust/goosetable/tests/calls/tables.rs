//! The rows that a post lists.

use super::*;

#[test]
fn contacts_stand_as_added() {
    let mut post = post();
    post.set_contact(ContactId(1), Verification::Verified)
        .unwrap();
    post.set_contact(VERIFIED, Verification::Compromised)
        .unwrap();
    let contacts: Vec<_> = post
        .contacts()
        .map(|contact| (contact.id, contact.verification))
        .collect();
    assert_eq!(
        contacts,
        [
            (VERIFIED, Verification::Compromised),
            (UNVERIFIED, Verification::Unverified),
            (COMPROMISED, Verification::Compromised),
            (ContactId(1), Verification::Verified),
        ]
    );
}

#[test]
fn carried_rows_are_what_was_left_here() {
    let mut post = post();
    let long = Envelope {
        ciphertext: &[0xab; 2064],
        ..envelope(2, 3)
    };
    let first = carry(&mut post, VERIFIED, envelope(1, 4));
    let second = carry(&mut post, UNVERIFIED, long);
    let rows: Vec<_> = post
        .carried()
        .map(|row| (row.slot, row.depositor, row.envelope))
        .collect();
    assert_eq!(
        rows,
        [
            (first, VERIFIED, envelope(1, 4)),
            (second, UNVERIFIED, long)
        ]
    );
}

#[test]
fn tombstones_and_bad_tags_are_listed() {
    let mut post = post();
    let turned = carry(&mut post, VERIFIED, envelope(1, 4));
    let _ = post.stored_tombstone(tag(2), SECRET, 90).unwrap();
    let _ = post.tomb(VERIFIED, tag(1), SECRET).unwrap();
    let tombstones: Vec<_> = post
        .tombstones()
        .map(|row| (row.slot, row.tag, row.secret, row.expiry_min))
        .collect();
    assert_eq!(
        tombstones,
        [(turned, tag(1), SECRET, 100), (Slot(1), tag(2), SECRET, 90)]
    );
    post.failed(VERIFIED, tag(3)).unwrap();
    post.failed(UNVERIFIED, tag(3)).unwrap();
    let bad: Vec<_> = post.bad_tags().map(|row| (row.peer, row.tag)).collect();
    assert_eq!(bad, [(VERIFIED, tag(3)), (UNVERIFIED, tag(3))]);
}

#[test]
fn own_rows_have_their_ciphertexts_and_their_bytes() {
    let mut post = post();
    let long = OwnMessage {
        ciphertext: &[0xab; 2064],
        ..message(VERIFIED, 2, 8)
    };
    post.own_envelope(message(VERIFIED, 3, 7)).unwrap();
    post.own_envelope(long).unwrap();
    assert_eq!(post.own_ciphertext(VERIFIED, 2), Some(&[0xab; 2064][..]));
    assert_eq!(post.own_ciphertext(VERIFIED, 3), Some(&[0x0e; 80][..]));
    assert_eq!(post.own_ciphertext(VERIFIED, 4), None);
    for (place, row) in post.own_rows().enumerate() {
        let bytes = row.to_bytes();
        assert_eq!(bytes, post.areas().own[OwnRow::SIZE * place..][..54]);
        assert_eq!(OwnRow::from_bytes(&bytes), row);
        let ciphertext = post.own_ciphertext(row.contact, row.message);
        assert_eq!(ciphertext.unwrap().len(), row.ciphertext_len());
    }
}

#[test]
fn lengths_are_exact() {
    let mut post = post();
    for byte in 1..=3 {
        carry(&mut post, VERIFIED, envelope(byte, 4));
    }
    let mut rows = post.carried();
    for left in [3, 2, 1, 0] {
        assert_eq!((rows.len(), rows.clone().count()), (left, left));
        assert_eq!(rows.next().is_some(), 0 < left);
    }
    let mut backwards = post.carried().rev().map(|row| row.slot);
    assert_eq!(backwards.next(), Some(Slot(2)));
}

#[test]
fn rows_are_found_by_their_tags() {
    let mut post = post();
    carry(&mut post, VERIFIED, envelope(1, 4));
    let slot = carry(&mut post, UNVERIFIED, envelope(2, 4));
    let row = post.carried_of(tag(2)).unwrap();
    assert_eq!((row.slot, row.depositor), (slot, UNVERIFIED));
    assert_eq!(
        (row.envelope, post.tombstone_of(tag(2))),
        (envelope(2, 4), None)
    );
    let _ = post.tomb(VERIFIED, tag(2), SECRET).unwrap();
    assert_eq!(post.carried_of(tag(2)), None);
    assert_eq!(post.tombstone_of(tag(2)).unwrap().slot, slot);
    assert_eq!(post.tombstone_of(tag(1)), None);
}

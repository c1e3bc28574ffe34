//! The call own envelope.

use super::*;

#[test]
fn the_row_has_the_route_tag_and_the_setting() {
    let mut post = post();
    let row = post.own_envelope(message(VERIFIED, 1, 7)).unwrap().unwrap();
    assert_eq!(row.tag.to_string(), "efd3bf2fdce2687e3e22dc39bb537096");
    assert_eq!(
        (row.contact, row.message, row.secret),
        (VERIFIED, 1, SECRET)
    );
    assert_eq!((row.expiry_min, row.copies, row.renewed), (1450, 6, false));
    assert_eq!(post.own_row(VERIFIED, 1), Some(row));
    assert_eq!(post.own_row(VERIFIED, 2), None);

    let other = OwnMessage {
        key: MessageKey {
            direction: Direction::Responder,
            generation: 2,
            index: 300,
        },
        ..message(VERIFIED, 2, 0)
    };
    let row = post.own_envelope(other).unwrap().unwrap();
    assert_eq!(row.tag.to_string(), "3983454dd7735186fb58ffca8c215949");
}

#[test]
fn others_may_fetch_it_with_its_commitment() {
    let mut post = post();
    let row = post.own_envelope(message(VERIFIED, 1, 7)).unwrap().unwrap();
    let fetched = post.fetch(UNVERIFIED, row.tag).unwrap();
    let expected = Envelope {
        header: Header {
            tag: row.tag,
            commitment: COMMITMENT,
            expiry_min: 1450,
            copies: 6,
        },
        ciphertext: &[0x0e; 80],
    };
    assert_eq!(fetched, Some(expected));
    assert_eq!(post.fetch(VERIFIED, row.tag).unwrap(), None);
}

#[test]
fn rows_stand_by_contact_as_added_and_message_number() {
    let mut post = post();
    for (contact, number) in [(UNVERIFIED, 1), (VERIFIED, 9), (VERIFIED, 2)] {
        post.own_envelope(message(contact, number, number)).unwrap();
    }
    let order: Vec<_> = post
        .own_rows()
        .map(|row| (row.contact, row.message))
        .collect();
    assert_eq!(order, [(VERIFIED, 2), (VERIFIED, 9), (UNVERIFIED, 1)]);
}

#[test]
fn refusals_in_their_order() {
    let mut post = post();
    post.own_envelope(message(VERIFIED, 1, 0)).unwrap();
    let short = OwnMessage {
        ciphertext: &[0; 47],
        ..message(VERIFIED, 1, 1)
    };
    let stranger = OwnMessage {
        contact: STRANGER,
        ..short
    };
    assert_eq!(refused(&mut post, |post| post.own_envelope(stranger)), 2);
    assert_eq!(refused(&mut post, |post| post.own_envelope(short)), 10);
    let fresh = OwnMessage {
        message: 2,
        ..short
    };
    assert_eq!(refused(&mut post, |post| post.own_envelope(fresh)), 11);
    for number in 2..=4 {
        post.own_envelope(message(VERIFIED, number, number))
            .unwrap();
    }
    let fifth = message(VERIFIED, 5, 5);
    assert_eq!(refused(&mut post, |post| post.own_envelope(fifth)), 4);
}

#[test]
fn no_envelope_of_a_long_message_or_of_a_257th() {
    let mut post = sized(Sizes {
        own_cells: 256,
        ..SIZES
    });
    let long = OwnMessage {
        ciphertext: &[0; 4064],
        ..message(VERIFIED, 1, 1)
    };
    assert_eq!(post.own_envelope(long).unwrap(), None);
    assert_eq!(post.counts().own, 0);
    for number in 0..256 {
        post.own_envelope(message(VERIFIED, number, number))
            .unwrap();
    }
    assert_eq!(
        post.own_envelope(message(VERIFIED, 256, 256)).unwrap(),
        None
    );
    assert_eq!(post.counts().own, 256);
}

#[test]
fn it_goes_to_couriers_alone() {
    let mut post = post();
    let row = post.own_envelope(message(VERIFIED, 1, 7)).unwrap().unwrap();
    for (peer, goes) in [(VERIFIED, false), (UNVERIFIED, true)] {
        let mut area = [[0; 8]; MAX_LISTED];
        let listed = post.inventory_of_ours(peer, &mut area).unwrap();
        assert_eq!(listed.contains(&row.tag.prefix()), goes);
        assert_eq!(post.fetch(peer, row.tag).unwrap().is_some(), goes);
        let mut exchange = Exchange::closed();
        post.fresh_exchange(&mut exchange, peer).unwrap();
        let record = post.inventory(&mut exchange, peer, &Window::EMPTY, &[]);
        let Record::Taken(replies) = record.unwrap() else {
            panic!("malformed");
        };
        assert_eq!(replies.len(), usize::from(goes));
    }
}

#[test]
fn rows_are_equal_in_any_cell() {
    let mut post = post();
    post.own_envelope(message(VERIFIED, 1, 1)).unwrap();
    let row = post.own_envelope(message(VERIFIED, 2, 2)).unwrap().unwrap();
    let mut again = self::post();
    again.restore_own_row(row, &[0x0e; 80]).unwrap();
    let restored = again.own_row(VERIFIED, 2).unwrap();
    assert_ne!(restored.to_bytes(), row.to_bytes(), "another cell");
    assert_eq!(restored, row);
    for at in (0..52).filter(|at| *at != 49) {
        let mut bytes = row.to_bytes();
        bytes[at] ^= 1;
        assert_ne!(OwnRow::from_bytes(&bytes), row, "byte {at}");
    }
    let mut renewed = row;
    renewed.renewed = true;
    assert_ne!(renewed, row);
}

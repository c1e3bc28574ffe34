//! The calls envelope and fetch.

use super::*;

#[test]
fn the_worked_example() {
    let mut post = post();
    let mut worked = envelope(0x11, 9);
    worked.header.commitment = Commitment([0x22; 16]);
    worked.ciphertext = &[0; 48];
    let Received::Replied {
        code: first,
        actions,
        ..
    } = post.envelope(VERIFIED, worked, &Window::EMPTY).unwrap()
    else {
        panic!("ours");
    };
    assert_eq!(first, Custody::Accepted);
    let mut blob = [0; BLOB];
    let stored = actions.post().row_blob(Slot(0), &mut blob).unwrap().len();
    assert_eq!((listed(actions), stored), (vec![Action::Put(Slot(0))], 94));
    assert_eq!(code(&mut post, VERIFIED, worked), Custody::Duplicate);
    assert_eq!(post.counts().carried, 1);
    assert_eq!(post.next_slot(), Slot(1));
}

#[test]
fn an_accepted_row_has_the_lesser_copies_and_expiry() {
    let mut post = post();
    let mut long = envelope(1, 9);
    long.header.expiry_min = 5000;
    let slot = carry(&mut post, UNVERIFIED, long);
    let (header, depositor, ciphertext) = carried(&post, slot);
    assert_eq!((header.copies, header.expiry_min), (6, 10 + 1440));
    assert_eq!((header.tag, header.commitment), (tag(1), COMMITMENT));
    assert_eq!((depositor, ciphertext), (UNVERIFIED, vec![0xc7; 48]));

    let slot = carry(&mut post, UNVERIFIED, envelope(2, 3));
    let (header, ..) = carried(&post, slot);
    assert_eq!((header.copies, header.expiry_min), (3, 100));
}

#[test]
fn the_first_test_that_applies_is_the_code() {
    let mut post = post();
    carry(&mut post, VERIFIED, envelope(1, 4));
    let mut expired = envelope(1, 4);
    expired.header.expiry_min = 10;
    assert_eq!(code(&mut post, VERIFIED, expired), Custody::Invalid);
    assert_eq!(
        code(&mut post, VERIFIED, envelope(1, 4)),
        Custody::Duplicate
    );
    let off = Setting {
        enabled: false,
        ..Setting::default()
    };
    post.set_setting(off).unwrap();
    assert_eq!(code(&mut post, VERIFIED, expired), Custody::Off);
}

#[test]
fn what_a_courier_takes() {
    let mut post = post();
    let bytes = [0; 4064];
    for (byte, length, expected) in [
        (1, 48, Custody::Accepted),
        (2, 2064, Custody::Accepted),
        (3, 2065, Custody::Invalid),
        (4, 15, Custody::Invalid),
        (5, 4064, Custody::Invalid),
        (6, 0, Custody::Invalid),
    ] {
        let sealed = Envelope {
            ciphertext: &bytes[..length],
            ..envelope(byte, 1)
        };
        assert_eq!(
            code(&mut post, VERIFIED, sealed),
            expected,
            "{length} bytes"
        );
    }
    assert_eq!(code(&mut post, VERIFIED, envelope(7, 0)), Custody::Invalid);
    for (byte, expiry_min, expected) in [(8, 11, Custody::Accepted), (9, 10, Custody::Invalid)] {
        let mut near = envelope(byte, 1);
        near.header.expiry_min = expiry_min;
        assert_eq!(code(&mut post, VERIFIED, near), expected);
    }
}

#[test]
fn duplicate_looks_at_own_rows_and_every_held_row() {
    let mut post = post();
    let own = post.own_envelope(message(VERIFIED, 1, 7)).unwrap().unwrap();
    let _ = post.stored_tombstone(tag(2), SECRET, 90).unwrap();
    carry(&mut post, VERIFIED, envelope(3, 4));
    for known in [own.tag, tag(2), tag(3)] {
        let mut again = envelope(0, 4);
        again.header.tag = known;
        assert_eq!(code(&mut post, VERIFIED, again), Custody::Duplicate);
    }
}

#[test]
fn sixteen_rows_of_one_contact_and_thirty_two_of_a_verified_one() {
    for (peer, quota) in [(UNVERIFIED, 16), (COMPROMISED, 16), (VERIFIED, 32)] {
        let mut post = post();
        for byte in 0..quota {
            carry(&mut post, peer, envelope(byte, 4));
        }
        assert_eq!(code(&mut post, peer, envelope(quota, 4)), Custody::Full);
        post.set_clock(100 * 60);
        let mut late = envelope(quota, 4);
        late.header.expiry_min = 200;
        assert_eq!(
            code(&mut post, peer, late),
            Custody::Full,
            "expired rows count"
        );
        let _ = post.maintenance().unwrap();
        assert_eq!(code(&mut post, peer, late), Custody::Accepted);
    }
}

#[test]
fn no_cell_meets_4_only_where_it_would_be_accepted() {
    let mut post = sized(Sizes {
        carried_cells: 2,
        ..SIZES
    });
    carry(&mut post, VERIFIED, envelope(1, 4));
    carry(&mut post, VERIFIED, envelope(2, 4));
    let third = |post: &mut Post| {
        post.envelope(VERIFIED, envelope(3, 4), &Window::EMPTY)
            .map(drop)
    };
    assert_eq!(refused(&mut post, third), 4);
    assert_eq!(
        code(&mut post, VERIFIED, envelope(2, 4)),
        Custody::Duplicate
    );
}

#[test]
fn no_slot_meets_6_only_where_one_is_needed() {
    let mut post = post();
    post.load(b"HN\xff\xff\xff\xff\xff\xff\xff\xff").unwrap();
    assert_eq!(post.next_slot(), Slot(u64::MAX));
    let valid = |post: &mut Post| {
        post.envelope(VERIFIED, envelope(1, 4), &Window::EMPTY)
            .map(drop)
    };
    assert_eq!(refused(&mut post, valid), 6);
    assert_eq!(code(&mut post, VERIFIED, envelope(1, 0)), Custody::Invalid);
}

#[test]
fn an_envelope_in_the_window_is_ours() {
    let mut post = post();
    let window = window_of([
        window_row(VERIFIED, 2, tag(1)),
        window_row(VERIFIED, 3, tag(2)),
    ]);
    let mut sealed = envelope(2, 0);
    sealed.header.expiry_min = 0;
    let before = post.areas().clone();
    match post.envelope(UNVERIFIED, sealed, &window).unwrap() {
        Received::Ours {
            contact,
            generation,
            index,
            ..
        } => assert_eq!((contact, generation, index), (VERIFIED, 0, 3)),
        other => panic!("{other:?}"),
    }
    assert!(*post.areas() == before);
}

#[test]
fn unknown_contacts_meet_2() {
    let mut post = post();
    let from = |peer, window: Window| {
        move |post: &mut Post| post.envelope(peer, envelope(1, 4), &window).map(drop)
    };
    assert_eq!(refused(&mut post, from(STRANGER, Window::EMPTY)), 2);
    let window = window_of([window_row(STRANGER, 0, tag(9))]);
    assert_eq!(refused(&mut post, from(VERIFIED, window)), 2);
    assert_eq!(
        refused(&mut post, |post| post.fetch(STRANGER, tag(1)).map(drop)),
        2
    );
}

#[test]
fn ours_is_the_first_row_with_the_tag_and_says_no_direction() {
    let mut post = post();
    let initiator = window_row(VERIFIED, 3, tag(2));
    let mut responder = initiator;
    responder.key.direction = Direction::Responder;
    for (rows, first) in [
        (vec![initiator], initiator),
        (vec![responder], responder),
        (vec![responder, initiator], initiator),
    ] {
        let window = Window::from_rows(rows).unwrap();
        let said = post.envelope(UNVERIFIED, envelope(2, 4), &window);
        assert_eq!(
            format!("{:?}", said.unwrap()),
            "Ours { contact: ContactId(5), generation: 0, index: 3 }"
        );
        assert_eq!(window.row_of(tag(2)), Some(first));
    }
}

#[test]
fn a_fetch_gives_the_envelope_and_takes_no_copies_off() {
    let mut post = post();
    let bytes: Vec<u8> = (0..=255).cycle().take(2064).collect();
    carry(&mut post, VERIFIED, envelope(1, 4));
    let long = Envelope {
        ciphertext: &bytes,
        ..envelope(2, 5)
    };
    let slot = carry(&mut post, VERIFIED, long);
    for _ in 0..2 {
        let fetched = post.fetch(UNVERIFIED, tag(2)).unwrap();
        assert_eq!(fetched, Some(long));
    }
    assert_eq!(carried(&post, slot).0.copies, 5);
    assert_eq!(post.fetch(UNVERIFIED, tag(3)).unwrap(), None);
}

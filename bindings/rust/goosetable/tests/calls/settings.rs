//! Sizes, contacts, the setting and the clock.

use super::*;

#[test]
fn a_new_post_has_nothing() {
    let post = Post::new(SIZES).unwrap();
    assert_eq!(post.counts(), Counts::default());
    assert_eq!((post.clock(), post.next_slot()), (0, Slot(0)));
    assert_eq!(post.setting(), Setting::default());
    assert_eq!(post.areas().sizes(), SIZES);
}

#[test]
fn sizes_that_do_not_count_or_fit_are_told() {
    let cells = |carried_cells, own_cells| Sizes {
        carried_cells,
        own_cells,
        ..SIZES
    };
    assert!(Post::new(cells(256, 256)).is_ok());
    let carried = Post::new(cells(257, 1)).unwrap_err();
    assert_eq!(carried, SizeError::CarriedCells(257));
    assert_eq!(carried.to_string(), "257 carried cells: at most 256 count");
    assert_eq!(
        Post::new(cells(0, 300)).unwrap_err(),
        SizeError::OwnCells(300)
    );
    for tombstone_rows in [usize::MAX, usize::MAX / 44] {
        let sizes = Sizes {
            tombstone_rows,
            ..SIZES
        };
        assert_eq!(Post::new(sizes).unwrap_err(), SizeError::Memory);
    }
}

#[test]
fn contacts_are_added_and_altered() {
    let mut post = post();
    assert_eq!(post.counts().contacts, 3);
    assert_eq!(post.verification(VERIFIED), Some(Verification::Verified));
    assert_eq!(
        post.verification(COMPROMISED),
        Some(Verification::Compromised)
    );
    assert_eq!(post.verification(STRANGER), None);
    post.set_contact(VERIFIED, Verification::Unverified)
        .unwrap();
    assert_eq!(post.verification(VERIFIED), Some(Verification::Unverified));
    assert_eq!(post.counts().contacts, 3);
}

#[test]
fn a_257th_contact_meets_13() {
    let mut post = Post::new(SIZES).unwrap();
    for id in 0..256 {
        post.set_contact(ContactId(id), Verification::Unverified)
            .unwrap();
    }
    assert_eq!(
        refused(&mut post, |post| post
            .set_contact(ContactId(256), Verification::Verified)),
        13
    );
    post.set_contact(ContactId(255), Verification::Verified)
        .unwrap();
    assert_eq!(
        post.verification(ContactId(255)),
        Some(Verification::Verified)
    );
}

#[test]
fn a_setting_outside_its_range_meets_7() {
    let mut post = post();
    let setting = |copies, lifetime_min| Setting {
        enabled: true,
        copies,
        lifetime_min,
    };
    for (copies, lifetime) in [(1, 60), (16, 10_080)] {
        post.set_setting(setting(copies, lifetime)).unwrap();
        assert_eq!(post.setting(), setting(copies, lifetime));
    }
    for (copies, lifetime) in [(0, 60), (17, 60), (1, 59), (1, 10_081)] {
        let wrong = setting(copies, lifetime);
        assert_eq!(refused(&mut post, |post| post.set_setting(wrong)), 7);
    }
}

#[test]
fn a_setting_has_4_bytes_and_a_verification_1() {
    let setting = Setting {
        enabled: true,
        copies: 7,
        lifetime_min: 0x0102,
    };
    let disabled = Setting {
        enabled: false,
        ..setting
    };
    for (setting, bytes) in [(setting, [1, 7, 1, 2]), (disabled, [0, 7, 1, 2])] {
        assert_eq!(setting.to_bytes(), bytes);
        assert_eq!(Setting::from_bytes(bytes), Some(setting));
    }
    assert_eq!(Setting::from_bytes([2, 7, 1, 2]), None);
    for (code, verification) in [
        (0, Verification::Unverified),
        (1, Verification::Verified),
        (2, Verification::Compromised),
    ] {
        assert_eq!(verification.code(), code);
        assert_eq!(Verification::from_code(code), Some(verification));
    }
    assert!((3..=u8::MAX).all(|code| Verification::from_code(code).is_none()));
}

#[test]
fn the_minute_stops_at_the_last_that_fits() {
    let mut post = post();
    assert_eq!((post.clock(), post.minute()), (600, 10));
    for (seconds, minute) in [(659, 10), (660, 11), ((1 << 32) * 60 - 61, u32::MAX - 1)] {
        post.set_clock(seconds);
        assert_eq!(post.minute(), minute);
    }
    post.set_clock(u64::MAX);
    assert_eq!((post.clock(), post.minute()), (u64::MAX, u32::MAX));
    let row = post.own_envelope(message(VERIFIED, 1, 0)).unwrap();
    assert_eq!(row.unwrap().expiry_min, u32::MAX);
}

#[test]
fn a_refusal_says_its_number_and_why() {
    assert_eq!(
        Refusal::UnknownContact.to_string(),
        "refused 2: the contact, or one in a window row, isn't known"
    );
    for (place, refusal) in Refusal::ALL.iter().enumerate() {
        assert_eq!(usize::from(refusal.number()), place + 1);
        assert_eq!(Refusal::from_number(refusal.number()), Some(*refusal));
    }
}

#[test]
fn every_number_up_to_127_is_a_refusal() {
    for number in 1..=127 {
        let refusal = Refusal::from_number(number).unwrap();
        assert_eq!(refusal.number(), number);
        let is_other = matches!(refusal, Refusal::Other { .. });
        assert_eq!(is_other, 13 < number);
    }
    assert_eq!(
        Refusal::from_number(14).unwrap().to_string(),
        "refused 14: a number that this version does not know"
    );
    for number in [0, 128, 129, 130, 131, 255] {
        assert_eq!(Refusal::from_number(number), None);
    }
}

//! Maintenance.

use super::*;

#[test]
fn held_rows_leave_by_slot_from_their_minute_on() {
    let mut post = post();
    carry(&mut post, VERIFIED, envelope(1, 4));
    let _ = post.stored_tombstone(tag(2), SECRET, 101).unwrap();
    let _ = post.stored_tombstone(tag(3), SECRET, 100).unwrap();
    carry(&mut post, VERIFIED, envelope(4, 4));
    post.set_clock(100 * 60 - 1);
    assert_eq!(listed(post.maintenance().unwrap()), []);
    post.set_clock(100 * 60);
    let deleted = [0, 2, 3].map(|slot| Action::Delete(Slot(slot)));
    assert_eq!(listed(post.maintenance().unwrap()), deleted);
    assert_eq!((post.counts().carried, post.counts().tombstones), (0, 1));
}

#[test]
fn an_own_row_is_renewed_once_and_then_dropped() {
    let mut post = post();
    post.own_envelope(message(VERIFIED, 1, 7)).unwrap();
    let put = [Action::OwnPut {
        contact: VERIFIED,
        message: 1,
    }];
    post.set_clock(1450 * 60);
    let setting = Setting {
        copies: 9,
        ..Setting::default()
    };
    post.set_setting(setting).unwrap();
    assert_eq!(listed(post.maintenance().unwrap()), put);
    let row = post.own_row(VERIFIED, 1).unwrap();
    assert_eq!(
        (row.renewed, row.copies, row.expiry_min),
        (true, 9, 1450 + 1440)
    );
    assert_eq!(listed(post.maintenance().unwrap()), []);
    post.set_clock(2890 * 60);
    assert_eq!(listed(post.maintenance().unwrap()), put);
    assert_eq!(post.own_row(VERIFIED, 1), None);
    post.own_envelope(message(VERIFIED, 1, 8)).unwrap();
}

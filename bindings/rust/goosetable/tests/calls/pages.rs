//! The screen page. The lines that are expected were written by hand, by document 02's columns.

use super::*;

const SIZED: Sizes = Sizes {
    tombstone_rows: 40,
    ..SIZES
};

/// A line of a page: what it says, and blanks up to 80 characters.
fn line(says: &str) -> String {
    format!("{says:<80}\n")
}

fn heading() -> String {
    line("HELD")
}

fn page(post: &Post, page: u64) -> String {
    post.page(page, &mut [0; PAGE]).to_owned()
}

/// The lines below a page's heading.
fn rows(post: &Post, number: u64) -> Vec<String> {
    let page = page(post, number);
    page.lines().skip(1).map(str::to_owned).collect()
}

fn slot(row: &str) -> u64 {
    row[..20].trim().parse().unwrap()
}

fn slots(post: &Post, number: u64) -> Vec<u64> {
    rows(post, number).iter().map(|row| slot(row)).collect()
}

/// A post whose row of each slot is carried or a tombstone, by what is told of the slot.
fn held(rows: u8, is_carried: impl Fn(u8) -> bool) -> Post {
    let mut post = sized(SIZED);
    for number in 0..rows {
        if is_carried(number) {
            carry(&mut post, VERIFIED, envelope(number, 4));
        } else {
            let _ = post.stored_tombstone(tag(number), SECRET, 90).unwrap();
        }
    }
    post
}

#[test]
fn a_row_of_each_kind_has_its_columns() {
    let mut post = held(2, |number| number == 0);
    assert_eq!(
        page(&post, 0),
        heading()
            + &line("                   0 C 0000000000000000         90   4                    5")
            + &line("                   1 T 0101010101010101         80")
    );
    carry(&mut post, COMPROMISED, envelope(0xfe, 9));
    assert_eq!(
        rows(&post, 0)[2].trim(),
        "2 C fefefefefefefefe         90   6                    7"
    );
}

#[test]
fn numbers_have_room_for_the_greatest() {
    let mut post = Post::new(SIZED).unwrap();
    post.set_contact(ContactId(u64::MAX), Verification::Verified)
        .unwrap();
    let mut blob = vec![0];
    blob.extend(u64::MAX.to_be_bytes());
    blob.extend(0x0123_4567_89ab_cdef_0123_4567_89ab_cdef_u128.to_be_bytes());
    blob.extend([0; 16]);
    blob.extend(u32::MAX.to_be_bytes());
    blob.push(255);
    blob.extend([0; 48]);
    let mut file = SavedFile::new();
    file.push(Slot(u64::MAX - 1), &blob).unwrap();
    post.load(file.as_bytes()).unwrap();
    assert_eq!(
        page(&post, 0),
        heading()
            + &line("18446744073709551614 C 0123456789abcdef 4294967295 255 18446744073709551615")
    );
}

#[test]
fn a_post_without_rows_has_the_heading_alone() {
    let mut post = post();
    post.own_envelope(message(VERIFIED, 1, 7)).unwrap();
    assert_eq!(post.pages(), 0);
    assert_eq!(page(&post, 0), heading());
}

#[test]
fn nineteen_rows_fill_a_page() {
    for (is_carried, kind) in [(true, " C "), (false, " T ")] {
        let full = held(19, |_| is_carried);
        assert_eq!((full.pages(), page(&full, 0).len()), (1, PAGE));
        assert!(slots(&full, 0).into_iter().eq(0..19));
        assert_eq!(page(&full, 0).matches(kind).count(), 19);
        assert_eq!(page(&full, 1), heading());
    }
}

#[test]
fn the_twentieth_row_stands_on_the_next_page() {
    for is_carried in [|_| true, |_| false, |number| number % 2 == 0] {
        let more = held(20, is_carried);
        assert_eq!(more.pages(), 2);
        assert!(slots(&more, 0).into_iter().eq(0..19));
        assert_eq!((slots(&more, 1), page(&more, 1).len()), (vec![19], 162));
    }
}

#[test]
fn rows_of_both_kinds_stand_by_slot() {
    let post = held(45, |number| number % 3 == 0);
    let shown = (0..post.pages())
        .flat_map(|number| rows(&post, number))
        .map(|row| (slot(&row), row[20..23].to_owned()));
    let kind = |slot| if slot % 3 == 0 { " C " } else { " T " };
    assert!(shown.eq((0..45).map(|slot| (slot, kind(slot).to_owned()))));
}

#[test]
fn a_page_past_the_last_is_the_heading() {
    let post = held(20, |number| number % 2 == 0);
    let past = [2, 3, u64::MAX / 19, u64::MAX / 19 + 1, u64::MAX - 1];
    for number in past.into_iter().chain([u64::MAX]) {
        assert_eq!(page(&post, number), heading(), "{number}");
    }
}

#[test]
fn an_expired_row_is_past_until_maintenance() {
    let mut post = held(2, |number| number == 0);
    let left = |post: &Post| -> Vec<_> {
        let rows = rows(post, 0);
        rows.iter().map(|row| row[40..50].to_owned()).collect()
    };
    for (seconds, carried, tombstone) in [
        (89 * 60 + 59, "        11", "         1"),
        (90 * 60, "        10", "      past"),
        (99 * 60 + 59, "         1", "      past"),
        (100 * 60, "      past", "      past"),
        (60 << 32, "      past", "      past"),
        (u64::MAX, "      past", "      past"),
        (0, "       100", "        90"),
    ] {
        post.set_clock(seconds);
        assert_eq!(left(&post), [carried, tombstone], "{seconds}");
    }
    post.set_clock(90 * 60);
    assert_eq!(post.maintenance().unwrap().count(), 1);
    assert_eq!(left(&post), ["        10"]);
}

#[test]
fn a_row_that_turned_keeps_its_line() {
    let mut post = held(2, |_| true);
    let Record::Taken(actions) = post.tomb(VERIFIED, tag(0), SECRET).unwrap() else {
        panic!("malformed");
    };
    assert_eq!(actions.count(), 1);
    assert_eq!(rows(&post, 0)[0].trim(), "0 T 0000000000000000         90");
    assert_eq!(slots(&post, 0), [0, 1]);
}

/// In areas that no call left, a slot may have two rows.
#[test]
fn of_equal_slots_the_carried_row_is_first() {
    let mut areas = held(2, |number| number == 1).into_areas();
    areas.tombstones[..8].copy_from_slice(&1_u64.to_be_bytes());
    let rows = rows(&Post::over(areas).unwrap(), 0);
    let begun: Vec<_> = rows.iter().map(|row| row[..22].trim()).collect();
    assert_eq!(begun, ["1 C", "1 T"]);
}

#[test]
fn what_is_behind_a_page_stays() {
    let post = held(20, |_| true);
    let mut area = [0xff; PAGE];
    let length = post.page(1, &mut area).len();
    assert_eq!(length, 162);
    assert!(area[..length].is_ascii());
    assert!(area[length..].iter().all(|byte| *byte == 0xff));
}

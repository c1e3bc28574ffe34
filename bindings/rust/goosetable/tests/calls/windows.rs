//! The window call, and windows that are made of what it lists.

use super::*;

const CHAIN: Chain = Chain {
    direction: Direction::Responder,
    generation: 3,
    next: 7,
};

#[test]
fn skipped_keys_come_first_and_500_is_the_most() {
    let skipped: Vec<_> = (0..499).map(key).collect();
    let keys = window(&skipped, &[CHAIN]).unwrap();
    assert_eq!(keys.len(), 500);
    assert_eq!(keys[..499], skipped);
    let last = MessageKey {
        direction: Direction::Responder,
        generation: 3,
        index: 7,
    };
    assert_eq!(keys[499], last);

    let skipped: Vec<_> = (0..500).map(key).collect();
    assert_eq!(window(&skipped, &[CHAIN]).unwrap(), skipped);
}

#[test]
fn chains_go_from_the_last_to_the_first_and_end_at_2_to_the_32() {
    let near_end = Chain {
        direction: Direction::Initiator,
        generation: 1,
        next: u64::from(u32::MAX) - 1,
    };
    let keys = window(&[], &[CHAIN, near_end]).unwrap();
    assert_eq!(keys.len(), 500);
    let of_the_last: Vec<_> = keys[..2]
        .iter()
        .map(|key| (key.generation, key.index))
        .collect();
    assert_eq!(of_the_last, [(1, u32::MAX - 1), (1, u32::MAX)]);
    assert_eq!((keys[2].generation, keys[2].index), (3, 7));
    assert_eq!((keys[499].generation, keys[499].index), (3, 504));

    let ended = Chain {
        next: 1 << 32,
        ..CHAIN
    };
    assert_eq!(window(&[], &[ended]).unwrap(), []);
}

#[test]
fn too_many_skipped_or_a_next_too_high_meets_12() {
    let skipped: Vec<_> = (0..501).map(key).collect();
    assert_eq!(window(&skipped, &[]), Err(Refusal::WindowRows));
    let above = Chain {
        next: (1 << 32) + 1,
        ..CHAIN
    };
    assert_eq!(window(&[], &[above]), Err(Refusal::WindowRows));
    assert_eq!(Refusal::WindowRows.number(), 12);
}

/// A row of every contact, direction, generation and index of a few, in the order of keys; each with its own tag.
fn rows_in_order() -> Vec<WindowRow> {
    let mut rows = Vec::new();
    for contact in [VERIFIED, UNVERIFIED] {
        for direction in [Direction::Initiator, Direction::Responder] {
            for generation in [0, 1] {
                for index in [0, 1, 256] {
                    let tag = tag(rows.len() as u8);
                    let key = MessageKey {
                        direction,
                        generation,
                        index,
                    };
                    rows.push(WindowRow { contact, key, tag });
                }
            }
        }
    }
    rows
}

#[test]
fn rows_stand_sorted_in_whatever_order_they_are_pushed() {
    let sorted = rows_in_order();
    let mut mixed = sorted.clone();
    mixed.reverse();
    mixed.rotate_left(7);
    mixed.swap(0, 11);
    let mut pushed = Window::EMPTY;
    for row in &mixed {
        pushed.push(*row).unwrap();
    }
    assert!(pushed.rows().eq(sorted.iter().copied()));
    assert_eq!((pushed.len(), pushed.is_empty()), (sorted.len(), false));
    assert!(Window::from_rows(mixed).unwrap() == pushed);
    for row in sorted {
        assert_eq!(pushed.row_of(row.tag), Some(row));
        let mut post = post();
        let mut sealed = envelope(0, 4);
        sealed.header.tag = row.tag;
        let said = post.envelope(VERIFIED, sealed, &pushed).unwrap();
        assert!(matches!(said, Received::Ours { .. }), "{said:?}");
    }
    assert_eq!(pushed.row_of(tag(0xff)), None);
}

#[test]
fn a_key_is_not_taken_twice() {
    let twice = window_row(VERIFIED, 1, tag(9));
    let mut window = window_of([window_row(VERIFIED, 0, tag(1)), twice]);
    let before = window.clone();
    let again = WindowRow {
        tag: tag(8),
        ..twice
    };
    for refused in [
        window.push(again),
        window.push_route(VERIFIED, &ROUTE_KEY, twice.key),
    ] {
        let error = refused.unwrap_err();
        assert_eq!((error.contact, error.key), (VERIFIED, key(1)));
        assert_eq!(
            error.to_string(),
            "the window has this key already: contact 5, direction I, generation 0, index 1"
        );
    }
    assert!(window == before);
    let error = Window::from_rows([again, window_row(VERIFIED, 0, tag(1)), twice]).unwrap_err();
    assert_eq!((error.contact, error.key), (VERIFIED, key(1)));
    window.push(window_row(UNVERIFIED, 1, tag(9))).unwrap();
    assert_eq!(window.len(), 3);
}

#[test]
fn a_route_is_pushed_with_its_tag() {
    let mut post = post();
    let own = post.own_envelope(message(VERIFIED, 1, 7)).unwrap().unwrap();
    let mut window = Window::EMPTY;
    for index in [9, 7, 8] {
        window.push_route(VERIFIED, &ROUTE_KEY, key(index)).unwrap();
    }
    let indexes: Vec<_> = window.rows().map(|row| row.key.index).collect();
    assert_eq!(indexes, [7, 8, 9]);
    assert_eq!(window.rows().next().unwrap().tag, own.tag);
    assert_eq!(window.row_of(own.tag).unwrap().key, key(7));
}

/// The source cannot have so many of one contact.
#[test]
fn five_hundred_and_one_rows_of_one_contact_are_taken() {
    let last = window_row(VERIFIED, 500, tag(1));
    let others = (0..500).map(|index| window_row(VERIFIED, index, tag(2)));
    let window = Window::from_rows(others.chain([last])).unwrap();
    let mut post = post();
    let said = post.envelope(VERIFIED, envelope(1, 4), &window).unwrap();
    assert!(
        matches!(said, Received::Ours { index: 500, .. }),
        "{said:?}"
    );
}

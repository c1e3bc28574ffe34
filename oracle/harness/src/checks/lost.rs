//! Request Two: a tombstoned window tag is not fetched. Each check puts its calls to the source with the line, to the second statement, and to
//! the library where it is linked.

use super::bench::*;
use super::{Check, Outcome, same};
use post::{Action, Answer, Call, Prefix, Reply, Sizes, Tag, WindowRow, encode_window};

/// As `SIZES`, with rows enough for three tombstones.
const ROOM: Sizes = Sizes {
    tombstone_rows: 3,
    ..SIZES
};

/// A window of the verified contact, its tags by rising index.
fn window(tags: &[Tag]) -> Vec<WindowRow> {
    (0..)
        .zip(tags)
        .map(|(index, tag)| window_row(VERIFIED, index, *tag))
        .collect()
}

/// The prefixes listed, then the empty list with this window: its replies.
fn ended(bench: &mut Bench, prefixes: &[Prefix], tags: &[Tag]) -> Vec<Reply> {
    bench.inventory(prefixes, &[]);
    match bench.inventory(&[], &window(tags)) {
        Answer::Done {
            malformed: false,
            replies,
            actions,
            ..
        } if actions.is_empty() => replies,
        other => panic!("{other:?}"),
    }
}

fn fail(bench: &mut Bench, tag: Tag) {
    bench.call(Call::Failed { peer: VERIFIED, tag });
}

fn tomb(tag: Tag) -> Reply {
    Reply::Tomb(tag, SECRET)
}

fn no_second_look() -> Outcome {
    let mut bench = opened(ROOM);
    bench.store(tag_in(1, 7), 100);
    let replies = ended(&mut bench, &[prefix(1)], &[tag_in(1, 7), tag_in(1, 8)]);
    same(replies, vec![tomb(tag_in(1, 7))])?;
    bench.open();
    let replies = ended(&mut bench, &[prefix(1)], &[tag_in(1, 8), tag_in(1, 7)]);
    same(replies, vec![Reply::Fetch(tag_in(1, 8)), tomb(tag_in(1, 7))])
}

/// The tomb is that of the lowest slot with the prefix, and need not be of the window's tag.
fn tomb_of_another_tag() -> Outcome {
    let mut bench = opened(ROOM);
    bench.store(tag_in(1, 9), 100);
    let replies = ended(&mut bench, &[prefix(1)], &[tag_in(1, 7)]);
    same(replies, vec![Reply::Fetch(tag_in(1, 7)), tomb(tag_in(1, 9))])?;
    bench.store(tag_in(1, 7), 100);
    bench.open();
    let replies = ended(&mut bench, &[prefix(1)], &[tag_in(1, 7)]);
    same(replies, vec![tomb(tag_in(1, 9))])
}

/// All 16 bytes decide: the last may be all that differs.
fn last_byte() -> Outcome {
    let mut near = tag(1);
    near[15] ^= 1;
    let mut bench = opened(ROOM);
    bench.store(near, 100);
    let replies = ended(&mut bench, &[prefix(1)], &[tag(1)]);
    same(replies, vec![Reply::Fetch(tag(1)), tomb(near)])
}

fn repeats() -> Outcome {
    let mut bench = opened(ROOM);
    bench.store(tag(1), 100);
    let listed = [prefix(1), prefix(2), prefix(1), prefix(2), prefix(1)];
    let replies = ended(&mut bench, &listed, &[tag(1), tag(2)]);
    let fetches = [Reply::Fetch(tag(2)), Reply::Fetch(tag(2))];
    same(
        replies,
        [&fetches[..], &[tomb(tag(1)), tomb(tag(1)), tomb(tag(1))]].concat(),
    )
}

fn bad_and_tombstoned() -> Outcome {
    let mut bench = opened(ROOM);
    fail(&mut bench, tag_in(1, 7));
    bench.store(tag_in(1, 7), 100);
    let replies = ended(&mut bench, &[prefix(1)], &[tag_in(1, 7), tag_in(1, 8)]);
    same(replies, vec![tomb(tag_in(1, 7))])?;
    // A bad first row ends the look, also where the second is the tombstoned one.
    bench.open();
    bench.store(tag_in(2, 8), 100);
    let replies = ended(
        &mut bench,
        &[prefix(1), prefix(2)],
        &[tag_in(1, 7), tag_in(2, 9), tag_in(2, 8)],
    );
    same(
        replies,
        vec![Reply::Fetch(tag_in(2, 9)), tomb(tag_in(1, 7)), tomb(tag_in(2, 8))],
    )
}

/// Expiry 5 at minute 10: the tombstone counts until maintenance takes it; then the fetch comes back.
fn expired_until_maintenance() -> Outcome {
    let mut bench = opened(ROOM);
    bench.store(tag(1), 5);
    same(ended(&mut bench, &[prefix(1)], &[tag(1)]), vec![tomb(tag(1))])?;
    let areas = bench.areas;
    let gone = Answer::Done {
        malformed: false,
        replies: Vec::new(),
        actions: vec![Action::Delete { slot: 0 }],
        searched: 0,
    };
    same(bench.call(Call::Maintenance { areas }), gone)?;
    bench.open();
    same(ended(&mut bench, &[prefix(1)], &[tag(1)]), vec![Reply::Fetch(tag(1))])
}

/// While a row is carried its tag is fetched, if it stands in the window; once a tomb has turned the row, it is not.
fn turned_row() -> Outcome {
    let mut bench = opened(ROOM);
    bench.deposit(1);
    same(ended(&mut bench, &[prefix(1)], &[tag(1)]), vec![Reply::Fetch(tag(1))])?;
    let turning = bench.tomb_call(tag(1), SECRET);
    bench.call(turning);
    bench.open();
    same(ended(&mut bench, &[prefix(1)], &[tag(1)]), vec![tomb(tag(1))])
}

/// A tombstone that a report stored, and one that a load brought.
fn reported_and_loaded() -> Outcome {
    let mut bench = opened(ROOM);
    bench.call(Call::Opened {
        areas: bench.areas,
        peer: VERIFIED,
        tag: tag(1),
        secret: SECRET,
        expiry: 100,
    });
    same(ended(&mut bench, &[prefix(1)], &[tag(1)]), vec![tomb(tag(1))])?;
    let file = bench.save();
    let mut bench = opened(ROOM);
    bench.call(Call::Load { file });
    same(ended(&mut bench, &[prefix(1)], &[tag(1)]), vec![tomb(tag(1))])
}

/// An envelope of the tag is ours as before, though its tag is tombstoned.
fn ours_as_before() -> Outcome {
    let mut bench = opened(ROOM);
    bench.store(tag(1), 100);
    let call = Call::Envelope {
        areas: bench.areas,
        window: encode_window(&window(&[tag(1)])),
        peer: VERIFIED,
        envelope: envelope(tag(1), 100, 1),
    };
    let ours = Answer::Ours {
        contact: VERIFIED,
        generation: 0,
        index: 0,
    };
    same(bench.call(call), ours)
}

pub const CHECKS: &[Check] = &[
    ("a tombstoned first row: no fetch and no second look", no_second_look),
    ("a tomb of another tag of the prefix", tomb_of_another_tag),
    ("a tombstone of a tag that differs in its last byte", last_byte),
    ("each repeat loses its own fetch", repeats),
    ("bad and tombstoned", bad_and_tombstoned),
    (
        "an expired tombstone stops a fetch until maintenance takes it",
        expired_until_maintenance,
    ),
    ("the tag of a carried row that turned", turned_row),
    ("tombstones by a report and by a load", reported_and_loaded),
    ("ours as before", ours_as_before),
];

//! couriering.rs: inventories, fetches, offers, custody codes.

use super::bench::*;
use super::{Check, Outcome, holds, same};
use post::{Action, Prefix, Reply, Tag};
use reference::Source;

fn listing(source: &mut Source, count: usize) -> bool {
    source.inventory(0, VERIFIED, vec![prefix(3); count], &[]).malformed
}

fn inventory_of_512() -> Outcome {
    let mut post = source();
    holds(!listing(&mut post, 500) && !listing(&mut post, 12), "512 are fine")?;
    holds(!listing(&mut post, 0), "and the terminator")?;
    holds(
        listing(&mut post, 0) && listing(&mut post, 1),
        "nothing after the terminator",
    )?;
    let mut post = source();
    holds(listing(&mut post, 513), "513 at once")?;
    holds(!listing(&mut post, 512) && listing(&mut post, 1), "513 in all")?;
    holds(!listing(&mut post, 0), "malformed left the exchange open")
}

/// The tags and copies that an empty inventory offers.
fn offers(replies: &[Reply]) -> Vec<(Tag, u8)> {
    replies
        .iter()
        .filter_map(|reply| match reply {
            Reply::Envelope(envelope) => Some((envelope.tag, envelope.copies)),
            _ => None,
        })
        .collect()
}

fn half_is_offered() -> Outcome {
    let mut source = source();
    for (slot, copies) in [1, 2, 5].into_iter().enumerate() {
        source.put_held(slot as u64, &carried(VERIFIED, tag(copies), 100, copies));
    }
    let replies = listed(&mut source, 0, VERIFIED, &[], &[]);
    same(offers(&replies), vec![(tag(2), 1), (tag(5), 2)])?;
    same(copies(&source, tag(5)), Some(5))
}

fn fetches_in_listed_order() -> Outcome {
    let mut source = source();
    let window = [window_row(VERIFIED, 0, tag(1)), window_row(VERIFIED, 1, tag(2))];
    let replies = listed(
        &mut source,
        0,
        VERIFIED,
        &[prefix(2), prefix(1), prefix(3), prefix(2)],
        &window,
    );
    same(
        replies,
        vec![Reply::Fetch(tag(2)), Reply::Fetch(tag(1)), Reply::Fetch(tag(2))],
    )
}

/// The rows stand in the order of their keys, whatever the order in which they were given.
fn first_row_in_key_order() -> Outcome {
    let mut source = source();
    let mut later = window_row(VERIFIED, 0, tag_in(1, 9));
    later.dir = b'R';
    let window = [
        window_row(UNVERIFIED, 0, tag_in(1, 8)),
        later,
        window_row(VERIFIED, 7, tag_in(1, 7)),
    ];
    let replies = listed(&mut source, 0, VERIFIED, &[prefix(1)], &window);
    same(replies, vec![Reply::Fetch(tag_in(1, 7))])
}

fn no_second_look() -> Outcome {
    let mut source = source();
    source.failed(VERIFIED, tag_in(1, 7), false);
    let window = [
        window_row(VERIFIED, 0, tag_in(1, 7)),
        window_row(VERIFIED, 1, tag_in(1, 8)),
    ];
    same(listed(&mut source, 0, VERIFIED, &[prefix(1)], &window), vec![])?;
    same(
        listed(&mut source, 1, UNVERIFIED, &[prefix(1)], &window),
        vec![Reply::Fetch(tag_in(1, 7))],
    )
}

fn tombs_lowest_slot_first() -> Outcome {
    let mut source = source();
    source.put_held(9, &tombstone(tag_in(1, 1), 1));
    source.put_held(4, &tombstone(tag_in(1, 2), 100));
    source.put_held(3, &carried(VERIFIED, tag_in(1, 3), 100, 1));
    let replies = listed(&mut source, 0, VERIFIED, &[prefix(1), prefix(2), prefix(1)], &[]);
    same(replies, vec![Reply::Tomb(tag_in(1, 2), SECRET); 2])
}

/// The fetched tag has no tombstone: the tombs are of another tag of its prefix, and of another prefix.
fn fetches_then_tombs_then_offers() -> Outcome {
    let mut source = source();
    source.put_held(0, &tombstone(tag_in(1, 9), 100));
    source.put_held(1, &carried(VERIFIED, tag(2), 100, 4));
    source.put_held(2, &tombstone(tag(3), 100));
    let replies = listed(
        &mut source,
        0,
        VERIFIED,
        &[prefix(3), prefix(1)],
        &[window_row(VERIFIED, 0, tag(1)), window_row(VERIFIED, 1, tag(3))],
    );
    same(
        replies[..3].to_vec(),
        vec![
            Reply::Fetch(tag(1)),
            Reply::Tomb(tag(3), SECRET),
            Reply::Tomb(tag_in(1, 9), SECRET),
        ],
    )?;
    same(offers(&replies), vec![(tag(2), 2)])
}

/// Contacts stand as added: 7, then 5.
fn order_of_offers() -> Outcome {
    let mut source = Source::new(1);
    for contact in [COMPROMISED, VERIFIED, UNVERIFIED] {
        source.contact(contact, post::Verification::Verified);
    }
    source.fresh_exchange(0, UNVERIFIED);
    let second = own(&mut source, VERIFIED, 1, 1);
    let for_peer = own(&mut source, UNVERIFIED, 1, 2);
    let third = own(&mut source, VERIFIED, 2, 3);
    let first = own(&mut source, COMPROMISED, 9, 4);
    source.put_held(8, &carried(VERIFIED, tag(1), 100, 4));
    source.put_held(2, &carried(VERIFIED, tag(2), 100, 4));
    let order = vec![first, second, third, tag(2), tag(1)];
    let replies = listed(&mut source, 0, UNVERIFIED, &[], &[]);
    same(
        offers(&replies).into_iter().map(|(tag, _)| tag).collect(),
        order.clone(),
    )?;
    let prefixes: Vec<Prefix> = order.iter().map(|tag| post::array(tag, 0)).collect();
    same(source.inventory_of_ours(UNVERIFIED), vec![prefixes, vec![]])?;
    holds(
        source.fetch(UNVERIFIED, for_peer).replies.is_empty(),
        "own rows for the peer are not for it",
    )
}

fn tombstoned_or_listed() -> Outcome {
    let mut source = source();
    source.put_held(0, &carried(VERIFIED, tag_in(1, 1), 100, 4));
    source.put_held(1, &tombstone(tag_in(1, 1), 100));
    source.put_held(2, &carried(VERIFIED, tag_in(1, 2), 100, 4));
    source.put_held(3, &carried(VERIFIED, tag_in(2, 3), 100, 4));
    same(
        offers(&listed(&mut source, 0, VERIFIED, &[prefix(2)], &[])),
        vec![(tag_in(1, 2), 2)],
    )?;
    same(
        offers(&listed(&mut source, 1, UNVERIFIED, &[prefix(1)], &[])),
        vec![(tag_in(2, 3), 2)],
    )
}

fn our_inventory() -> Outcome {
    let mut source = source();
    source.put_held(0, &carried(VERIFIED, tag(1), 1, 0));
    source.put_held(1, &tombstone(tag(1), 100));
    source.put_held(2, &carried(VERIFIED, tag(2), 100, 1));
    same(
        source.inventory_of_ours(VERIFIED),
        vec![vec![prefix(1), prefix(2)], vec![]],
    )?;
    for slot in 0..256 {
        own(&mut source, UNVERIFIED, slot, slot);
    }
    for slot in 0..254u64 {
        source.put_held(10 + slot, &carried(VERIFIED, tag(3), 100, 1));
    }
    let lists = source.inventory_of_ours(VERIFIED);
    same(lists.iter().map(Vec::len).collect(), vec![500, 12, 0])
}

fn only_accepted_takes_off() -> Outcome {
    for code in 0..5 {
        let mut source = source();
        source.put_held(0, &carried(VERIFIED, tag(1), 100, 5));
        listed(&mut source, 0, VERIFIED, &[], &[]);
        let raw = source.custody_code(0, VERIFIED, tag(1), code);
        let accepted = code == 0;
        same(
            raw.actions,
            if accepted {
                vec![Action::Put { slot: 0 }]
            } else {
                vec![]
            },
        )?;
        same(copies(&source, tag(1)), Some(if accepted { 3 } else { 5 }))?;
        let again = source.custody_code(0, VERIFIED, tag(1), 0);
        same(again.actions, vec![])?;
    }
    Ok(())
}

fn three_peers() -> Outcome {
    let mut source = source();
    source.put_held(0, &carried(VERIFIED, tag(1), 100, 4));
    let peers = [VERIFIED, UNVERIFIED, COMPROMISED];
    for (exchange, peer) in peers.into_iter().enumerate() {
        same(
            offers(&listed(&mut source, exchange, peer, &[], &[])),
            vec![(tag(1), 2)],
        )?;
    }
    for (exchange, (peer, left)) in peers.into_iter().zip([2, 0, 0]).enumerate() {
        same(
            source.custody_code(exchange, peer, tag(1), 0).actions,
            vec![Action::Put { slot: 0 }],
        )?;
        same(copies(&source, tag(1)), Some(left))?;
    }
    let blob = source.blob(0).ok_or("the row is there")?;
    same(blob[45], 0)?;
    same(reference::raw::read_row(&blob), Some(carried(VERIFIED, tag(1), 100, 0)))
}

fn fetch_takes_nothing() -> Outcome {
    let mut source = source();
    source.put_held(0, &carried(VERIFIED, tag(1), 5, 4));
    let raw = source.fetch(UNVERIFIED, tag(1));
    same(raw.replies, vec![Reply::Envelope(envelope(tag(1), 5, 4))])?;
    same(copies(&source, tag(1)), Some(4))?;
    same(source.fetch(UNVERIFIED, tag(2)).replies, vec![])
}

/// Expiry 5 at minute 10.
fn expired_until_maintenance() -> Outcome {
    let mut source = source();
    source.put_held(0, &carried(VERIFIED, tag(1), 5, 4));
    same(offers(&listed(&mut source, 0, VERIFIED, &[], &[])), vec![(tag(1), 2)])?;
    same(source.inventory_of_ours(VERIFIED)[0].len(), 1)?;
    same(source.maintain().actions, vec![Action::Delete { slot: 0 }])?;
    same(source.fetch(VERIFIED, tag(1)).replies, vec![])
}

/// An own and a carried row of one tag: both are offered, the later offer stands, the carried row pays.
fn two_offers_of_one_tag() -> Outcome {
    let mut source = source();
    let shared = own(&mut source, UNVERIFIED, 1, 0);
    source.put_held(0, &carried(VERIFIED, shared, 100, 16));
    same(
        offers(&listed(&mut source, 0, VERIFIED, &[], &[])),
        vec![(shared, 3), (shared, 8)],
    )?;
    same(
        source.custody_code(0, VERIFIED, shared, 0).actions,
        vec![Action::Put { slot: 0 }],
    )?;
    same(copies(&source, shared), Some(8))?;
    same(source.state().own[0].copies, 6)
}

fn code_for_an_own_row() -> Outcome {
    let mut source = source();
    let mine = own(&mut source, UNVERIFIED, 3, 0);
    same(offers(&listed(&mut source, 0, VERIFIED, &[], &[])), vec![(mine, 3)])?;
    let put = Action::OwnPut {
        contact: UNVERIFIED,
        message: 3,
    };
    same(source.custody_code(0, VERIFIED, mine, 0).actions, vec![put])?;
    same(copies(&source, mine), Some(3))
}

pub const CHECKS: &[Check] = &[
    (
        "512 and the terminator are fine; 513 and anything after it are malformed",
        inventory_of_512,
    ),
    ("copies 1 are never offered, 2 offer 1, 5 offer 2", half_is_offered),
    ("fetches follow listed order, repeats included", fetches_in_listed_order),
    (
        "a prefix meets the first window row in key order",
        first_row_in_key_order,
    ),
    ("a bad tag of this peer: no fetch and no second look", no_second_look),
    ("tombs: lowest slot first match", tombs_lowest_slot_first),
    ("fetches, then tombs, then offers", fetches_then_tombs_then_offers),
    (
        "offers: own rows by contact as added and message number, then carried by slot",
        order_of_offers,
    ),
    (
        "a tombstoned tag or a listed prefix is not offered",
        tombstoned_or_listed,
    ),
    (
        "our inventory: tombstoned too, any copies; lists of 500, an empty one last",
        our_inventory,
    ),
    (
        "a custody code clears the offer; only Accepted takes copies off",
        only_accepted_takes_off,
    ),
    ("three peers accepting 2 of 4: 0", three_peers),
    ("a fetch takes no copies off", fetch_takes_nothing),
    (
        "an expired row is offered and fetched until maintenance",
        expired_until_maintenance,
    ),
    ("two offers of one tag", two_offers_of_one_tag),
    ("a code for an own row", code_for_an_own_row),
];

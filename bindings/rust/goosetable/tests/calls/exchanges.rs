//! Exchanges: fresh exchange, inventories, custody codes.

use super::*;

fn opened(post: &Post, peer: ContactId) -> Exchange {
    let mut exchange = Exchange::closed();
    post.fresh_exchange(&mut exchange, peer).unwrap();
    exchange
}

/// What a list is answered with, if it is taken.
fn taken<'a>(answer: Result<Record<Replies<'a>>, Refusal>) -> Replies<'a> {
    match answer.unwrap() {
        Record::Taken(replies) => replies,
        Record::Malformed => panic!("malformed"),
    }
}

/// What a whole inventory of a peer is answered with, at its end; a list that is gathered is answered with nothing.
fn ended<'a>(
    post: &'a mut Post,
    exchange: &mut Exchange,
    peer: ContactId,
    window: &Window,
    prefixes: &[Prefix],
) -> Replies<'a> {
    if !prefixes.is_empty() {
        let gathered = taken(post.inventory(exchange, peer, window, prefixes));
        assert_eq!((gathered.len(), gathered.searched()), (0, 0));
    }
    taken(post.inventory(exchange, peer, window, &[]))
}

/// The replies to a whole inventory of a peer.
fn meet<'a>(
    post: &'a mut Post,
    exchange: &mut Exchange,
    peer: ContactId,
    window: &Window,
    prefixes: &[Prefix],
) -> Vec<Reply<'a>> {
    ended(post, exchange, peer, window, prefixes).collect()
}

/// How many envelopes a whole inventory of a peer brings, and for how many rows the tombstones were searched.
fn counted(post: &mut Post, peer: ContactId, prefixes: &[Prefix]) -> (usize, usize) {
    let mut exchange = opened(post, peer);
    let replies = ended(post, &mut exchange, peer, &Window::EMPTY, prefixes);
    let searched = replies.searched();
    let is_offer = |reply: &Reply<'_>| matches!(reply, Reply::Envelope(_));
    (replies.filter(is_offer).count(), searched)
}

fn offers(post: &mut Post, exchange: &mut Exchange, peer: ContactId) -> Vec<(Tag, u8)> {
    meet(post, exchange, peer, &Window::EMPTY, &[])
        .into_iter()
        .map(|reply| match reply {
            Reply::Envelope(envelope) => (envelope.header.tag, envelope.header.copies),
            other => panic!("{other:?}"),
        })
        .collect()
}

fn is_malformed(post: &mut Post, exchange: &mut Exchange, prefixes: &[Prefix]) -> bool {
    let before = exchange.clone();
    let record = post
        .inventory(exchange, VERIFIED, &Window::EMPTY, prefixes)
        .unwrap();
    match record {
        Record::Malformed => {
            assert!(*exchange == before, "malformed leaves the exchange");
            true
        }
        Record::Taken(_) => false,
    }
}

#[test]
fn an_exchange_is_opened_for_a_known_peer() {
    let mut post = post();
    let mut exchange = Exchange::closed();
    assert_eq!(exchange.peer(), None);
    post.fresh_exchange(&mut exchange, VERIFIED).unwrap();
    assert_eq!(exchange.peer(), Some(VERIFIED));
    let before = exchange.clone();
    assert_eq!(
        refused(&mut post, |post| post
            .fresh_exchange(&mut exchange, STRANGER)),
        2
    );
    assert!(exchange == before);
}

#[test]
fn half_of_the_copies_is_offered_and_one_copy_never() {
    let mut post = post();
    for (byte, copies) in [(1, 1), (2, 2), (5, 5), (6, 6)] {
        carry(&mut post, VERIFIED, envelope(byte, copies));
    }
    let mut exchange = opened(&post, UNVERIFIED);
    assert_eq!(
        offers(&mut post, &mut exchange, UNVERIFIED),
        [(tag(2), 1), (tag(5), 2), (tag(6), 3)]
    );
    assert_eq!((exchange.offered(), exchange.is_complete()), (3, true));
}

#[test]
fn an_expired_row_is_offered_until_maintenance() {
    let mut post = post();
    carry(&mut post, VERIFIED, envelope(1, 4));
    post.set_clock(100 * 60);
    let mut exchange = opened(&post, UNVERIFIED);
    assert_eq!(offers(&mut post, &mut exchange, UNVERIFIED), [(tag(1), 2)]);
    assert!(post.fetch(UNVERIFIED, tag(1)).unwrap().is_some());
    assert_eq!(
        listed(post.maintenance().unwrap()),
        [Action::Delete(Slot(0))]
    );
    post.fresh_exchange(&mut exchange, UNVERIFIED).unwrap();
    assert_eq!(offers(&mut post, &mut exchange, UNVERIFIED), []);
}

#[test]
fn own_rows_are_offered_first_and_never_to_their_contact() {
    let mut post = post();
    carry(&mut post, VERIFIED, envelope(1, 4));
    let own = post.own_envelope(message(VERIFIED, 1, 7)).unwrap().unwrap();
    let mut exchange = opened(&post, VERIFIED);
    assert_eq!(offers(&mut post, &mut exchange, VERIFIED), [(tag(1), 2)]);
    let mut exchange = opened(&post, UNVERIFIED);
    let replies = meet(&mut post, &mut exchange, UNVERIFIED, &Window::EMPTY, &[]);
    let sealed: Vec<_> = replies
        .iter()
        .map(|reply| match reply {
            Reply::Envelope(envelope) => (
                envelope.header.tag,
                envelope.header.commitment,
                envelope.ciphertext,
            ),
            other => panic!("{other:?}"),
        })
        .collect();
    assert_eq!(
        sealed,
        [
            (own.tag, COMMITMENT, &[0x0e; 80][..]),
            (tag(1), COMMITMENT, &[0xc7; 48][..]),
        ]
    );
}

#[test]
fn a_listed_or_tombstoned_row_is_not_offered_but_is_in_our_inventory() {
    let mut post = post();
    for byte in 1..=3 {
        carry(&mut post, VERIFIED, envelope(byte, 4));
    }
    carry(&mut post, VERIFIED, envelope(4, 1));
    let own = post.own_envelope(message(VERIFIED, 1, 7)).unwrap().unwrap();
    let _ = post.stored_tombstone(tag(2), SECRET, 90).unwrap();
    let mut exchange = opened(&post, VERIFIED);
    let replies = meet(
        &mut post,
        &mut exchange,
        VERIFIED,
        &Window::EMPTY,
        &[tag(1).prefix()],
    );
    assert_eq!(replies.len(), 1);
    let Reply::Envelope(offered) = replies[0] else {
        panic!("{replies:?}");
    };
    assert_eq!(offered.header.tag, tag(3));

    let mut area = [[0; 8]; MAX_LISTED];
    let held = [1, 2, 3, 4].map(|byte| tag(byte).prefix());
    assert_eq!(post.inventory_of_ours(VERIFIED, &mut area).unwrap(), held);
    let for_others = post.inventory_of_ours(UNVERIFIED, &mut area).unwrap();
    assert_eq!(for_others[0], own.tag.prefix());
    assert_eq!(for_others[1..], held);
    assert_eq!(
        post.inventory_of_ours(STRANGER, &mut area),
        Err(Refusal::UnknownContact)
    );
}

#[test]
fn fetches_follow_listed_order_then_tombs_then_offers() {
    let mut post = post();
    let window = window_of([
        window_row(VERIFIED, 0, tag(0xa0)),
        window_row(VERIFIED, 1, tag(0xa1)),
    ]);
    let _ = post.stored_tombstone(tag(0xdd), SECRET, 90).unwrap();
    carry(&mut post, VERIFIED, envelope(1, 4));
    let mut exchange = opened(&post, UNVERIFIED);
    let prefixes = [0xa1, 0xdd, 0xa0, 0xa1].map(|byte| tag(byte).prefix());
    let replies = meet(&mut post, &mut exchange, UNVERIFIED, &window, &prefixes);
    assert_eq!(
        replies[..4],
        [
            Reply::Fetch(tag(0xa1)),
            Reply::Fetch(tag(0xa0)),
            Reply::Fetch(tag(0xa1)),
            Reply::Tomb {
                tag: tag(0xdd),
                secret: SECRET,
            },
        ]
    );
    assert_eq!(replies.len(), 5);
    assert!(matches!(replies[4], Reply::Envelope(envelope) if envelope.header.tag == tag(1)));
}

#[test]
fn a_bad_tag_is_not_fetched_from_its_peer_nor_looked_past() {
    let mut post = post();
    let mut twin = tag(0xa0);
    twin.0[15] = 0;
    let window = window_of([
        window_row(VERIFIED, 0, tag(0xa0)),
        window_row(VERIFIED, 1, twin),
    ]);
    post.failed(UNVERIFIED, tag(0xa0)).unwrap();
    for (peer, fetches) in [
        (UNVERIFIED, vec![]),
        (VERIFIED, vec![Reply::Fetch(tag(0xa0))]),
    ] {
        let mut exchange = opened(&post, peer);
        let replies = meet(&mut post, &mut exchange, peer, &window, &[twin.prefix()]);
        assert_eq!(replies, fetches);
    }
}

#[test]
fn a_tombstoned_tag_is_not_fetched_nor_looked_past_and_its_tomb_stays() {
    let mut post = post();
    let (first, mut second) = (tag(0xa0), tag(0xa0));
    second.0[15] = 0;
    let window = window_of([
        window_row(VERIFIED, 0, first),
        window_row(VERIFIED, 1, second),
    ]);
    let tomb = Reply::Tomb {
        tag: second,
        secret: SECRET,
    };
    let fetch = Reply::Fetch(first);

    // The first tombstone has only the prefix of the first row, and stays the one of lowest slot.
    for (tag, replies) in [
        (second, vec![fetch, fetch, tomb, tomb]),
        (first, vec![tomb, tomb]),
    ] {
        let _ = post.stored_tombstone(tag, SECRET, 90).unwrap();
        let mut exchange = opened(&post, UNVERIFIED);
        let listed = [first.prefix(), first.prefix()];
        assert_eq!(
            meet(&mut post, &mut exchange, UNVERIFIED, &window, &listed),
            replies
        );
    }
}

/// A post that holds rows of every kind for a verified peer, with tombstones that expire before any of them; and what the
/// peer lists. Carried rows by their tags: 1 and 2 are offered, 3 is tombstoned, 4 listed, 5 both, 6 has one copy, 7 has
/// one and is tombstoned. Own rows by their places: 0 is for the peer, 1 is offered, 2 is tombstoned, 3 listed.
fn of_every_kind() -> (Post, [Prefix; 3]) {
    let mut post = post();
    for (byte, copies) in [(1, 4), (2, 2), (3, 4), (4, 4), (5, 4), (6, 1), (7, 1)] {
        carry(&mut post, VERIFIED, envelope(byte, copies));
    }
    let own = [
        message(VERIFIED, 1, 1),
        message(UNVERIFIED, 2, 2),
        message(UNVERIFIED, 3, 3),
        message(COMPROMISED, 4, 4),
    ]
    .map(|message| post.own_envelope(message).unwrap().unwrap().tag);
    for tag in [tag(3), tag(5), tag(7), own[2]] {
        let _ = post.stored_tombstone(tag, SECRET, 90).unwrap();
    }
    (post, [tag(4), tag(5), own[3]].map(|tag| tag.prefix()))
}

#[test]
fn tombstones_are_searched_for_what_is_offered_or_tombstoned_and_for_nothing_else() {
    let (mut post, listed) = of_every_kind();
    let (offered, tombstoned) = (3, 2);
    assert_eq!(
        counted(&mut post, VERIFIED, &listed),
        (offered, offered + tombstoned)
    );
}

#[test]
fn without_tombstones_as_many_rows_are_offered_as_they_were_searched_for() {
    let (mut post, listed) = of_every_kind();
    let (offered, searched) = counted(&mut post, VERIFIED, &listed);
    assert!(0 < offered && offered < searched);
    post.set_clock(90 * 60);
    let _ = post.maintenance().unwrap();
    let Counts {
        own,
        carried,
        tombstones,
        ..
    } = post.counts();
    assert_eq!((own, carried, tombstones), (4, 7, 0));
    assert_eq!(counted(&mut post, VERIFIED, &listed), (searched, searched));
}

#[test]
fn a_tomb_with_the_tombstones_secret_ends_what_it_holds_back() {
    let (mut post, listed) = of_every_kind();
    let tombstones: Vec<_> = post.tombstones().collect();
    for row in tombstones {
        let told = post.tomb(COMPROMISED, row.tag, row.secret).unwrap();
        assert!(matches!(told, Record::Taken(_)));
    }
    let (offered, _) = counted(&mut post, VERIFIED, &listed);
    assert_eq!(counted(&mut post, VERIFIED, &listed), (offered, offered));
    assert_eq!((post.own_rows().len(), post.carried().len()), (3, 4));
}

#[test]
fn only_the_end_of_an_inventory_has_a_count_and_it_stays() {
    let mut post = post();
    carry(&mut post, VERIFIED, envelope(1, 4));
    carry(&mut post, VERIFIED, envelope(2, 4));
    let mut exchange = opened(&post, UNVERIFIED);
    let mut list = |post: &mut Post, prefixes: &[Prefix]| {
        let mut replies =
            taken(post.inventory(&mut exchange, UNVERIFIED, &Window::EMPTY, prefixes));
        let before = (replies.len(), replies.searched());
        replies.next();
        (before, replies.searched())
    };
    for byte in [3, 4] {
        assert_eq!(list(&mut post, &[tag(byte).prefix()]), ((0, 0), 0));
    }
    assert_eq!(list(&mut post, &[]), ((2, 2), 2));
    let opened = post.opened(UNVERIFIED, tag(3), SECRET, 90).unwrap();
    assert_eq!((opened.replies.len(), opened.replies.searched()), (1, 0));
}

#[test]
fn two_rows_of_one_tag_count_twice() {
    let mut post = post();
    let tags = [1, 2].map(|number| {
        let row = post.own_envelope(message(VERIFIED, number, 7));
        row.unwrap().unwrap().tag
    });
    assert_eq!(tags[0], tags[1]);
    let mut exchange = opened(&post, UNVERIFIED);
    offers(&mut post, &mut exchange, UNVERIFIED);
    assert_eq!(exchange.offered(), 1);
    assert_eq!(counted(&mut post, UNVERIFIED, &[]), (2, 2));
    let _ = post.stored_tombstone(tags[0], SECRET, 90).unwrap();
    assert_eq!(counted(&mut post, UNVERIFIED, &[]), (0, 2));
    assert_eq!(counted(&mut post, UNVERIFIED, &[tags[0].prefix()]), (0, 0));
}

/// A post with 256 own rows and 256 carried ones, of four envelopes from each of 64 contacts.
fn full() -> Post {
    let mut post = sized(Sizes::default());
    for number in 0..64 {
        let depositor = ContactId(1000 + u64::from(number));
        post.set_contact(depositor, Verification::Verified).unwrap();
        for byte in 4 * number..=4 * number + 3 {
            carry(&mut post, depositor, envelope(byte, 4));
        }
    }
    for number in 0..256 {
        let made = post.own_envelope(message(UNVERIFIED, number, number));
        assert!(made.unwrap().is_some());
    }
    post
}

#[test]
fn at_most_512_rows_are_counted() {
    let mut post = full();
    assert_eq!(counted(&mut post, VERIFIED, &[]), (512, 512));
    assert_eq!(counted(&mut post, UNVERIFIED, &[]), (256, 256));
    let own: Vec<_> = post.own_rows().map(|row| row.tag).collect();
    for tag in own.into_iter().chain((0..=255).map(tag)) {
        let _ = post.stored_tombstone(tag, SECRET, 90).unwrap();
    }
    assert_eq!(counted(&mut post, VERIFIED, &[]), (0, 512));
}

#[test]
fn five_hundred_and_twelve_prefixes_are_fine_and_one_more_is_malformed() {
    let mut post = post();
    let mut exchange = opened(&post, VERIFIED);
    assert!(!is_malformed(&mut post, &mut exchange, &[[0; 8]; 500]));
    assert!(is_malformed(&mut post, &mut exchange, &[[0; 8]; 13]));
    assert!(!is_malformed(&mut post, &mut exchange, &[[0; 8]; 12]));
    assert_eq!((exchange.listed(), exchange.is_complete()), (512, false));
    assert!(is_malformed(&mut post, &mut exchange, &[[0; 8]; 1]));
    assert!(!is_malformed(&mut post, &mut exchange, &[]));
    assert_eq!((exchange.listed(), exchange.is_complete()), (0, true));
    assert!(is_malformed(&mut post, &mut exchange, &[]));
    assert!(is_malformed(&mut post, &mut exchange, &[[0; 8]; 1]));
}

#[test]
fn an_exchange_of_another_or_of_nobody_meets_3() {
    let mut post = post();
    for mut exchange in [opened(&post, UNVERIFIED), Exchange::closed()] {
        let before = exchange.clone();
        let inventory = |post: &mut Post| {
            post.inventory(&mut exchange, VERIFIED, &Window::EMPTY, &[])
                .map(drop)
        };
        assert_eq!(refused(&mut post, inventory), 3);
        let code = |post: &mut Post| {
            post.custody_code(&mut exchange, VERIFIED, tag(1), Custody::Accepted)
                .map(drop)
        };
        assert_eq!(refused(&mut post, code), 3);
        assert!(exchange == before);
    }
}

#[test]
fn inventories_meet_2_before_3() {
    let mut post = post();
    let mut exchange = Exchange::closed();
    let unknown = window_of([window_row(STRANGER, 0, tag(1))]);
    for (window, number) in [(unknown, 2), (Window::EMPTY, 3)] {
        let call = |post: &mut Post| {
            post.inventory(&mut exchange, VERIFIED, &window, &[])
                .map(drop)
        };
        assert_eq!(refused(&mut post, call), number);
    }
}

#[test]
fn only_accepted_takes_copies_off_and_any_code_clears_the_offer() {
    for (answer, left) in [
        (Custody::Accepted, 3),
        (Custody::Full, 5),
        (Custody::Duplicate, 5),
        (Custody::Off, 5),
        (Custody::Invalid, 5),
    ] {
        let mut post = post();
        let slot = carry(&mut post, VERIFIED, envelope(1, 5));
        let mut exchange = opened(&post, UNVERIFIED);
        offers(&mut post, &mut exchange, UNVERIFIED);
        let actions = post.custody_code(&mut exchange, UNVERIFIED, tag(1), answer);
        let put = if left < 5 {
            vec![Action::Put(slot)]
        } else {
            vec![]
        };
        assert_eq!(listed(actions.unwrap()), put);
        assert_eq!(carried(&post, slot).0.copies, left);
        assert_eq!(exchange.offered(), 0);
        let again = post.custody_code(&mut exchange, UNVERIFIED, tag(1), Custody::Accepted);
        assert_eq!(listed(again.unwrap()), []);
        assert_eq!(carried(&post, slot).0.copies, left);
    }
}

#[test]
fn three_peers_accepting_2_of_4_leave_0() {
    let mut post = post();
    carry(&mut post, VERIFIED, envelope(1, 4));
    let peers = [VERIFIED, UNVERIFIED, COMPROMISED];
    let mut open: Vec<_> = peers
        .map(|peer| (peer, opened(&post, peer)))
        .into_iter()
        .collect();
    for (peer, exchange) in &mut open {
        assert_eq!(offers(&mut post, exchange, *peer), [(tag(1), 2)]);
    }
    let mut left = Vec::new();
    for (peer, exchange) in &mut open {
        let _ = post
            .custody_code(exchange, *peer, tag(1), Custody::Accepted)
            .unwrap();
        let fetched = post.fetch(UNVERIFIED, tag(1)).unwrap().unwrap();
        left.push(fetched.header.copies);
    }
    assert_eq!(left, [2, 0, 0]);
    assert_eq!(counted(&mut post, VERIFIED, &[]), (0, 0));
}

#[test]
fn accepted_copies_of_an_own_row_are_an_own_put() {
    let mut post = post();
    let own = post.own_envelope(message(VERIFIED, 1, 7)).unwrap().unwrap();
    let mut exchange = opened(&post, UNVERIFIED);
    assert_eq!(offers(&mut post, &mut exchange, UNVERIFIED), [(own.tag, 3)]);
    let actions = post
        .custody_code(&mut exchange, UNVERIFIED, own.tag, Custody::Accepted)
        .unwrap();
    let left = actions.post().own_row(VERIFIED, 1).unwrap().copies;
    let put = Action::OwnPut {
        contact: VERIFIED,
        message: 1,
    };
    assert_eq!((listed(actions), left), (vec![put], 3));
}

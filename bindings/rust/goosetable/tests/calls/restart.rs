//! A host that stores what actions say, loses power at any of them, and starts again from what is stored.

use super::{any_bytes::Noise, files::file_of, *};
use std::collections::BTreeMap;

/// What a host has stored.
#[derive(Clone, Default)]
struct Store {
    contacts: Vec<Contact>,
    held: BTreeMap<Slot, Vec<u8>>,
    own: BTreeMap<(ContactId, u32), ([u8; OwnRow::SIZE], Vec<u8>)>,
}

impl Store {
    fn carry_out(&mut self, post: &Post, action: Action) {
        let mut area = [0; BLOB];
        match action {
            Action::Put(slot) => {
                let blob = post.row_blob(slot, &mut area).expect("a row to store");
                self.held.insert(slot, blob.to_vec());
            }
            Action::Delete(slot) => {
                self.held.remove(&slot).expect("a row to delete");
            }
            Action::OwnPut { contact, message } => self.store_own(post, contact, message),
            other => panic!("{other:?}"),
        }
    }

    /// Stores an own row as it is now, or that it has ended.
    fn store_own(&mut self, post: &Post, contact: ContactId, message: u32) {
        let key = (contact, message);
        match post.own_row(contact, message) {
            Some(row) => {
                let ciphertext = post.own_ciphertext(contact, message).unwrap();
                self.own.insert(key, (row.to_bytes(), ciphertext.to_vec()));
            }
            None => {
                self.own.remove(&key).expect("a row that has ended");
            }
        }
    }

    /// The post that the store is of, at a time.
    fn start(&self, seconds: u64) -> Post {
        let mut post = Post::new(SIZES).unwrap();
        for contact in &self.contacts {
            post.set_contact(contact.id, contact.verification).unwrap();
        }
        post.set_clock(seconds);
        let mut file = SavedFile::new();
        for (slot, blob) in &self.held {
            file.push(*slot, blob).unwrap();
        }
        post.load(file.as_bytes()).unwrap();
        for (row, ciphertext) in self.own.values().rev() {
            let row = OwnRow::from_bytes(row);
            post.restore_own_row(row, ciphertext).unwrap();
        }
        post
    }
}

/// A row without its cell.
type Row = (Slot, Tag, Vec<u8>);

fn held(post: &Post) -> Vec<Row> {
    let carried = post
        .carried()
        .map(|row| (row.slot, row.envelope.header.tag));
    let tombstones = post.tombstones().map(|row| (row.slot, row.tag));
    let mut rows: Vec<_> = carried
        .chain(tombstones)
        .map(|(slot, tag)| {
            let mut area = [0; BLOB];
            let blob = post.row_blob(slot, &mut area).unwrap();
            (slot, tag, blob.to_vec())
        })
        .collect();
    rows.sort();
    rows
}

fn owned(post: &Post) -> Vec<(Vec<u8>, Vec<u8>)> {
    post.own_rows()
        .map(|row| {
            let ciphertext = post.own_ciphertext(row.contact, row.message).unwrap();
            (row.to_bytes()[..52].to_vec(), ciphertext.to_vec())
        })
        .collect()
}

/// A post, its store, and how often power was lost.
struct Host {
    post: Post,
    store: Store,
    messages: u32,
    cuts: usize,
}

impl Host {
    fn new() -> Host {
        let post = post();
        let contacts = post.contacts().collect();
        let store = Store {
            contacts,
            ..Store::default()
        };
        Host {
            post,
            store,
            messages: 0,
            cuts: 0,
        }
    }

    /// Makes a call that lists actions, carries them out one by one, and tries a power cut before each.
    fn call<F>(&mut self, call: F)
    where
        F: FnOnce(&mut Post) -> Result<Actions<'_>, Refusal>,
    {
        let before = held(&self.post);
        let Ok(actions) = call(&mut self.post) else {
            return;
        };
        let post = actions.post();
        let after = held(post);
        for action in actions.held_first() {
            let cut = self.store.start(post.clock());
            half_done(&cut, &before, &after);
            self.cuts += 1;
            self.store.carry_out(post, action);
        }
        self.is_stored();
    }

    /// The post that the store is of is the post.
    fn is_stored(&self) {
        let again = self.store.start(self.post.clock());
        assert_eq!(held(&again), held(&self.post));
        assert_eq!(owned(&again), owned(&self.post));
        assert!(again.contacts().eq(self.post.contacts()));
        assert!(again.next_slot() <= self.post.next_slot());
    }

    fn send(&mut self, contact: ContactId) {
        self.messages += 1;
        let number = 1000 - self.messages;
        let sealed = OwnMessage {
            ciphertext: &[number as u8; 80],
            ..message(contact, number, number)
        };
        if let Ok(Some(row)) = self.post.own_envelope(sealed) {
            self.store.store_own(&self.post, row.contact, row.message);
        }
        self.is_stored();
    }

    fn deposit(&mut self, peer: ContactId, sealed: Envelope<'_>) {
        self.call(|post| match post.envelope(peer, sealed, &Window::EMPTY)? {
            Received::Replied { actions, .. } => Ok(actions),
            ours => panic!("{ours:?}"),
        });
    }

    /// Hands everything on to three peers at once, which accept it.
    fn hand_on(&mut self) {
        let peers = [VERIFIED, UNVERIFIED, COMPROMISED];
        let open = peers.map(|peer| offer(&mut self.post, peer));
        for (peer, mut exchange, tags) in open {
            for tag in tags {
                self.call(|post| post.custody_code(&mut exchange, peer, tag, Custody::Accepted));
            }
        }
    }

    fn tomb(&mut self, tag: Tag) {
        self.call(|post| {
            Ok(match post.tomb(VERIFIED, tag, SECRET)? {
                Record::Taken(actions) => actions,
                Record::Malformed => panic!("malformed"),
            })
        });
    }

    fn step(&mut self, noise: &mut Noise) {
        let peer = [VERIFIED, UNVERIFIED, COMPROMISED][noise.next() as usize % 3];
        let byte = (noise.next() % 64) as u8;
        match noise.next() % 8 {
            0..=2 => {
                let mut sealed = envelope(byte, 1 + byte % 6);
                sealed.header.expiry_min = (self.post.clock() / 60) as u32 + 20;
                self.deposit(peer, sealed);
            }
            3 => self.hand_on(),
            4 => self.tomb(tag(byte)),
            5 => self.send(peer),
            6 => match self.post.own_rows().last() {
                Some(row) => self.tomb(row.tag),
                None => self.send(peer),
            },
            _ => {
                self.post.set_clock(self.post.clock() + 60 * 8);
                self.call(Post::maintenance);
            }
        }
    }
}

/// Opens an exchange with a peer that lists nothing; answers it with the tags that were offered.
fn offer(post: &mut Post, peer: ContactId) -> (ContactId, Exchange, Vec<Tag>) {
    let mut exchange = Exchange::closed();
    post.fresh_exchange(&mut exchange, peer).unwrap();
    let record = post.inventory(&mut exchange, peer, &Window::EMPTY, &[]);
    let Record::Taken(replies) = record.unwrap() else {
        panic!("malformed");
    };
    let offered = |reply| match reply {
        Reply::Envelope(envelope) => Some(envelope.header.tag),
        _ => None,
    };
    (peer, exchange, replies.filter_map(offered).collect())
}

/// After a power cut each held row is one of before or of after the call, and none is gone that is in both.
fn half_done(cut: &Post, before: &[Row], after: &[Row]) {
    let stored = held(cut);
    for row in &stored {
        assert!(before.contains(row) || after.contains(row), "{row:?}");
    }
    for row in before.iter().filter(|row| after.contains(row)) {
        assert!(stored.contains(row), "{row:?}");
    }
}

#[test]
fn nothing_is_lost_by_a_power_cut() {
    let mut noise = Noise(4);
    let mut host = Host::new();
    let mut empty_rows = 0;
    for step in 0..150 {
        host.step(&mut noise);
        empty_rows += host
            .post
            .carried()
            .filter(|row| row.envelope.header.copies == 0)
            .count();
        if step % 50 == 49 {
            host.post = host.store.start(host.post.clock());
        }
    }
    assert!(100 < host.cuts && 0 < host.messages, "{}", host.cuts);
    assert!(0 < empty_rows, "no row has lost all its copies");
}

/// Three peers took all 4 copies of tag 2 in slot 1: each was offered half of them before the first one answered.
/// Slot 0 went, slot 2 is a tombstone, and slot 3, which came last, has the first cell.
fn all_handed_on() -> Host {
    let mut host = Host::new();
    let mut soon = envelope(1, 4);
    soon.header.expiry_min = 11;
    host.deposit(VERIFIED, soon);
    host.deposit(VERIFIED, envelope(2, 4));
    host.post.set_clock(660);
    host.call(Post::maintenance);
    host.call(|post| post.stored_tombstone(tag(3), SECRET, 90));
    host.hand_on();
    let other = Envelope {
        ciphertext: &[0x04; 80],
        ..envelope(4, 3)
    };
    host.deposit(UNVERIFIED, other);
    host
}

#[test]
fn a_post_of_which_three_peers_took_all_copies_is_saved_and_started_again() {
    let host = all_handed_on();
    let before = &host.post;
    let copies: Vec<_> = before
        .carried()
        .map(|row| (row.slot, row.envelope.header.copies))
        .collect();
    assert_eq!(copies, [(Slot(1), 0), (Slot(3), 3)]);
    let file = file_of(before);
    let mut again = post();
    again.load(&file).unwrap();
    assert_eq!(held(&again), held(before));
    assert!(again.carried().eq(before.carried()), "ciphertexts too");
    assert!(again.tombstones().eq(before.tombstones()));
    assert_eq!(again.next_slot(), before.next_slot());
    assert_eq!(file_of(&again), file);
    let stored = host.store.start(660);
    assert_eq!(file_of(&stored), file, "what actions stored is the file");
    let kept = SavedFile::from_bytes(&file).unwrap();
    let mut good = post();
    assert_eq!(kept.load_good(&mut good), Ok(vec![]), "nothing is left out");
    assert_eq!(file_of(&good), file);
}

#[test]
fn a_row_whose_copies_are_all_handed_on_serves_its_recipient_after_a_start() {
    let mut again = all_handed_on().store.start(660);
    let (_, _, offered) = offer(&mut again, COMPROMISED);
    assert_eq!(offered, [tag(4)], "a row without copies is not offered");
    let fetched = again.fetch(UNVERIFIED, tag(2)).unwrap();
    assert_eq!(fetched, Some(envelope(2, 0)));
    let sent_again = |post: &mut Post| code(post, COMPROMISED, envelope(2, 4));
    assert_eq!(sent_again(&mut again), Custody::Duplicate);
    let turned = tomb(&mut again, tag(2), SECRET);
    assert_eq!(turned, Some(vec![Action::Put(Slot(1))]));
    assert_eq!(tombstone(&again, Slot(1)), (tag(2), SECRET, 100));
    assert_eq!(sent_again(&mut again), Custody::Duplicate);
}

/// A tomb of an own row, cut after its tombstone was stored: the next start finds both, and ends the row.
#[test]
fn an_own_row_beside_its_tombstone_is_ended_at_the_next_start() {
    let mut host = Host::new();
    host.send(VERIFIED);
    let row = host.post.own_rows().next().unwrap();
    let Record::Taken(actions) = host.post.tomb(VERIFIED, row.tag, SECRET).unwrap() else {
        panic!("malformed");
    };
    let ended = Action::OwnPut {
        contact: VERIFIED,
        message: row.message,
    };
    let put = Action::Put(Slot(0));
    assert_eq!(actions.clone().collect::<Vec<_>>(), [ended, put]);
    assert_eq!(
        actions.clone().held_first().collect::<Vec<_>>(),
        [put, ended]
    );
    host.store.carry_out(actions.post(), put);

    let mut again = host.store.start(600);
    let tombstoned = again.tombstones().any(|tombstone| tombstone.tag == row.tag);
    assert!(tombstoned && again.own_row(VERIFIED, row.message).is_some());
    let Record::Taken(actions) = again.tomb(row.contact, row.tag, row.secret).unwrap() else {
        panic!("malformed");
    };
    assert_eq!(listed(actions), [ended]);
    assert_eq!(again.counts().own, 0);
}

#[test]
fn own_rows_are_restored_in_their_order_each_with_its_ciphertext() {
    let mut post = sized(Sizes {
        own_cells: 6,
        ..SIZES
    });
    for (contact, number) in [
        (UNVERIFIED, 1),
        (VERIFIED, 9),
        (VERIFIED, 2),
        (COMPROMISED, 5),
    ] {
        let sealed = OwnMessage {
            ciphertext: &[number as u8; 80],
            ..message(contact, number, number)
        };
        post.own_envelope(sealed).unwrap();
    }
    let mut again = sized(SIZES);
    for row in post.own_rows().rev() {
        let ciphertext = [row.message as u8; 80];
        again.restore_own_row(row, &ciphertext).unwrap();
    }
    assert_eq!(owned(&again), owned(&post));
    let tags: Vec<_> = post.own_rows().map(|row| (row.message, row.tag)).collect();
    for (message, tag) in tags {
        let peer = if message == 1 { VERIFIED } else { UNVERIFIED };
        let fetched = again.fetch(peer, tag).unwrap().unwrap();
        assert_eq!(fetched.ciphertext, [message as u8; 80]);
    }
}

#[test]
fn a_row_that_is_not_restored_changes_nothing() {
    let mut source = post();
    let row = source.own_envelope(message(VERIFIED, 1, 7));
    let row = row.unwrap().unwrap();
    let mut stranger = Post::new(SIZES).unwrap();
    let restored =
        |ciphertext: &'static [u8]| move |post: &mut Post| post.restore_own_row(row, ciphertext);
    assert_eq!(refused(&mut stranger, restored(&[0; 80])), 2);
    assert_eq!(refused(&mut source, restored(&[0; 80])), 10);
    assert_eq!(refused(&mut post(), restored(&[0; 48])), 11);
    let mut small = sized(Sizes {
        own_cells: 0,
        ..SIZES
    });
    assert_eq!(refused(&mut small, restored(&[0; 80])), 4);
    let mut length = row.to_bytes();
    length[50..52].copy_from_slice(&4064_u16.to_be_bytes());
    let long = OwnRow::from_bytes(&length);
    let restored = |post: &mut Post| post.restore_own_row(long, &[0; 4064]);
    assert_eq!(refused(&mut post(), restored), 11);
}

#[test]
fn stored_parts_are_the_post_again() {
    let mut noise = Noise(5);
    let mut host = Host::new();
    for _ in 0..40 {
        host.step(&mut noise);
    }
    let stored: Vec<_> = host.post.areas().parts().map(<[u8]>::to_vec).collect();
    let mut areas = Areas::fresh(SIZES).unwrap();
    for (part, bytes) in areas.parts_mut().zip(&stored) {
        part.copy_from_slice(bytes);
    }
    assert!(areas == *host.post.areas());
    assert_eq!(areas.parts().len(), 8);
    let again = Post::over(areas).unwrap();
    assert_eq!(held(&again), held(&host.post));
    assert_eq!(owned(&again), owned(&host.post));
}

//! An exchange's fields are private to couriering.rs. At the end of a list the exchanges are taken apart through
//! the source's own calls, and what comes out is held against what the answers showed.

use crate::{Reference, Source};
use post::{Action, Envelope, Exchange, Held, Prefix, Reply, Tag, Verification};
use std::collections::{BTreeMap, BTreeSet};

/// A prefix that no tag has.
const FILLER: Prefix = [0xee; 8];
const PEER: u64 = 1;
const MOST: u8 = u8::MAX;

fn carried(tag: Tag) -> Held {
    Held::Carried {
        depositor: PEER,
        envelope: Envelope {
            tag,
            commitment: [0; 16],
            expiry: u32::MAX,
            copies: MOST,
            ciphertext: vec![0; 48].into(),
        },
    }
}

fn tombstone(prefix: &Prefix) -> Held {
    let mut tag = [0; 16];
    tag[..8].copy_from_slice(prefix);
    Held::Tombstone {
        tag,
        secret: [0; 16],
        expiry: u32::MAX,
    }
}

/// The copies that were offered of a tag: an accepting code takes them off a row put there for it.
fn offered(probe: &mut Source, peer: u64, tag: Tag) -> Option<u8> {
    probe.put_held(0, &carried(tag));
    let raw = probe.custody_code(0, peer, tag, 0);
    let left = probe.state().carried().next().map(|(_, _, envelope)| envelope.copies);
    probe.remove_held(0);
    raw.actions
        .contains(&Action::Put { slot: 0 })
        .then(|| MOST - left.expect("the row"))
}

/// How many prefixes can still be listed.
fn room(probe: &mut Source, peer: u64) -> usize {
    let mut room = 0;
    while !probe.inventory(0, peer, vec![FILLER], &[]).malformed {
        room += 1;
    }
    room
}

/// The listed prefixes in their order: the tombs that the empty list brings, one tombstone for each prefix.
fn listed(probe: &mut Source, peer: u64, prefixes: &BTreeSet<Prefix>) -> Option<Vec<Prefix>> {
    for (slot, prefix) in (0..).zip(prefixes) {
        probe.put_held(slot, &tombstone(prefix));
    }
    let raw = probe.inventory(0, peer, Vec::new(), &[]);
    let prefix = |reply| match reply {
        Reply::Tomb(tag, _) => post::array(&tag, 0),
        _ => FILLER,
    };
    (!raw.malformed).then(|| raw.replies.into_iter().map(prefix).collect())
}

impl Reference {
    fn take_apart(&mut self, exchange: usize, prefixes: &BTreeSet<Prefix>) -> Exchange {
        let Some(peer) = self.source.exchange_peer(exchange) else {
            return Exchange::default();
        };
        let mut probe = Source::new(1);
        probe.contact(peer, Verification::Verified);
        self.source.move_exchange(exchange, &mut probe);
        let offers: BTreeMap<Tag, u8> = self
            .seen
            .iter()
            .filter_map(|tag| Some((*tag, offered(&mut probe, peer, *tag)?)))
            .collect();
        let room = room(&mut probe, peer);
        let listed = listed(&mut probe, peer, prefixes);
        let complete = listed.is_none();
        let listed = listed.unwrap_or_default();
        assert!(complete || listed.len() + room == 512, "listed and room are 512");
        Exchange {
            peer: Some(peer),
            complete,
            listed,
            offered: offers,
        }
    }

    /// Every exchange as the source has it, and as its answers showed it. The post is of no more use then.
    pub fn dissected(mut self) -> Vec<(Exchange, Exchange)> {
        let shown = self.exchanges.clone();
        let mut prefixes: BTreeSet<Prefix> = self.seen.iter().map(|tag| post::array(tag, 0)).collect();
        prefixes.extend(shown.iter().flat_map(|exchange| exchange.listed.iter().copied()));
        prefixes.remove(&FILLER);
        shown
            .into_iter()
            .enumerate()
            .map(|(index, shown)| (self.take_apart(index, &prefixes), shown))
            .collect()
    }
}

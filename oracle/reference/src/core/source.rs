//! The source's calls on a device, as they are: no refusal, and no area that could be too short.

mod restart;
mod searched;
pub(crate) mod view;

use super::convert::{action_out, dir_in, envelope_in, held_in, own_out, reply_out, verification_in};
use super::{Action, ContactId, Core, SessionLink, couriering};
use crate::PairingRole;
use crate::backend::{Backend, Opening, steered};
use crate::card::Card;
use crate::chain::{Queued, SendChain, Skipped, TAG_LEN};
use crate::courier::{self, Custody};
use crate::data::{CourierRecord, read_leb128};
use crate::pairing::Paired;
use crate::raw;
use crate::state::{Contact, CourierConfig, Device, Outgoing, Tombstone};
use alloc::collections::{BTreeMap, BTreeSet};
use post::{NewOwn, Prefix, Tag, WindowRow};
use std::marker::PhantomData;
use zeroize::Zeroizing;

/// What a call of the source gave.
#[derive(Debug, Clone, Default, PartialEq, Eq)]
pub struct Raw {
    pub malformed: bool,
    pub replies: Vec<post::Reply>,
    pub actions: Vec<post::Action>,
    /// How many contact rows it wrote besides; document 01 leaves them out.
    pub contact_rows: usize,
    /// The window row whose key it went on to open with: contact, generation, index.
    pub ours: Option<(u64, u8, u32)>,
    /// Queued messages that it keeps without an envelope; document 01 has no row for them.
    pub ended: usize,
}

impl Raw {
    /// The tags and copies that it offers, in their order.
    pub(crate) fn offers(&self) -> Vec<(Tag, u8)> {
        let offer = |reply: &post::Reply| match reply {
            post::Reply::Envelope(envelope) => Some((envelope.tag, envelope.copies)),
            _ => None,
        };
        self.replies.iter().filter_map(offer).collect()
    }
}

pub struct Source {
    core: Core<Backend>,
}

fn key(bytes: u64) -> Zeroizing<[u8; 32]> {
    let mut key = [0; 32];
    key[..8].copy_from_slice(&bytes.to_be_bytes());
    Zeroizing::new(key)
}

fn outgoing(new: &NewOwn) -> Outgoing {
    Outgoing {
        created_s: 0,
        queued: Queued {
            gen_: new.generation,
            idx: new.index,
            ct: new.ciphertext.0.clone(),
        },
        envelope: None,
    }
}

fn paired(id: u64) -> Paired {
    Paired {
        role: PairingRole::A,
        th: [0; 48],
        nonce_b: [0; 16],
        peer: Card {
            caps: 0,
            beacon_day: 0,
            beacon_key: key(0),
            name: String::new(),
            static_ek: None,
        },
        pair_id: [0; 16],
        chain_key: key(0),
        door_a_to_b: key(0),
        door_b_to_a: key(0),
        route_key: Zeroizing::new(raw::route_key_of(id)),
    }
}

impl Source {
    pub fn new(exchanges: usize) -> Self {
        let device = Device {
            beacon_day: 0,
            beacon_key: key(0),
            next_contact: 0,
            read_receipts: true,
            courier: CourierConfig::default(),
            contacts: Vec::new(),
            held: BTreeMap::new(),
            next_slot: 0,
        };
        Self {
            core: Core {
                device: Some(device),
                bad_tags: BTreeSet::new(),
                tags: BTreeMap::new(),
                now_s: 0,
                sessions: (0..exchanges).map(|_| None).collect(),
                current: 0,
                backend: PhantomData,
            },
        }
    }

    fn device(&self) -> &Device {
        self.core.device.as_ref().expect("there from the start")
    }

    fn device_mut(&mut self) -> &mut Device {
        self.core.device.as_mut().expect("there from the start")
    }

    // ---- what a host sets

    pub fn contact(&mut self, id: u64, verification: post::Verification) {
        let verification = verification_in(verification);
        let contacts = &mut self.device_mut().contacts;
        if let Some(contact) = contacts.iter_mut().find(|contact| contact.id.0 == id) {
            contact.verification = verification;
            return;
        }
        let mut contact = Contact::new(ContactId(id), paired(id));
        contact.verification = verification;
        contacts.push(contact);
    }

    /// Whether `CourierConfig::new` takes the numbers.
    pub fn setting(&mut self, enabled: bool, copies: u8, lifetime: u16) -> bool {
        let config = CourierConfig::new(enabled, copies, lifetime);
        if let Some(config) = config {
            self.device_mut().courier = config;
        }
        config.is_some()
    }

    pub fn clock(&mut self, seconds: u64) {
        self.core.now_s = seconds;
    }

    pub fn fresh_exchange(&mut self, exchange: usize, peer: u64) {
        self.core.sessions[exchange] = Some(SessionLink {
            contact: ContactId(peer),
            exchange: couriering::Exchange::default(),
        });
    }

    pub fn set_next_slot(&mut self, slot: u64) {
        self.device_mut().next_slot = slot;
    }

    pub fn put_held(&mut self, slot: u64, held: &post::Held) {
        self.device_mut().held.insert(slot, held_in(held));
    }

    pub fn remove_held(&mut self, slot: u64) {
        self.device_mut().held.remove(&slot);
    }

    pub(crate) fn clear_held(&mut self) {
        self.device_mut().held.clear();
    }

    // ---- records from a peer

    fn record(&mut self, peer: u64, record: CourierRecord, opening: Opening) -> Raw {
        let mut replies = Vec::new();
        let mut actions = Vec::new();
        let core = &mut self.core;
        let (result, asked) = steered(opening, || {
            core.courier_record(ContactId(peer), record, &mut replies, &mut Vec::new(), &mut actions)
        });
        self.core.tags.clear();
        self.check_blobs(&actions);
        Raw {
            malformed: result.is_ok_and(|malformed| malformed),
            replies: replies.into_iter().map(reply_out).collect(),
            contact_rows: actions.iter().filter(|action| action_out(action).is_none()).count(),
            actions: actions.iter().filter_map(action_out).collect(),
            ended: 0,
            ours: asked.map(|(key, aad)| {
                let (index, _) = read_leb128(&aad[1..]).expect("the source wrote it");
                (u64::from_be_bytes(post::array(&key, 0)), aad[0], index)
            }),
        }
    }

    /// The blob of a put is the blob of the row that then stands in the slot.
    fn check_blobs(&self, actions: &[Action]) {
        for action in actions {
            if let Action::PutCourier { slot, state } = action {
                let row = self.device().held[slot].row(*slot);
                assert_eq!(row.state, *state, "the blob of slot {slot}");
            }
        }
    }

    /// Window rows become skipped keys. The source finds the tags itself where they are those of `route_tag`;
    /// any other tag goes into its cache. A key's bytes say whose it is.
    fn set_window(&mut self, rows: &[WindowRow]) {
        for contact in &mut self.device_mut().contacts {
            contact.receiver.skipped.clear();
        }
        for row in rows {
            let dir = dir_in(post::Dir::of(row.dir).expect("a direction"));
            let contact = self.core.contact_mut(ContactId(row.contact));
            contact.receiver.skipped.push(Skipped {
                gen_: row.generation,
                dir,
                idx: row.index,
                key: key(row.contact),
                created_s: 0,
            });
            let routed = raw::route_tag(&contact.route_key, row.dir, row.generation, row.index);
            if routed != row.tag {
                let place = (ContactId(row.contact), dir, row.generation, row.index);
                self.core.tags.insert(place, row.tag);
            }
        }
    }

    /// An envelope in the window stops at its opening: the host opens it, and reports.
    pub fn envelope(&mut self, peer: u64, envelope: &post::Envelope, window: &[WindowRow]) -> Raw {
        self.set_window(window);
        let record = CourierRecord::Envelope(envelope_in(envelope));
        self.record(peer, record, Opening::Stop)
    }

    pub fn inventory(&mut self, exchange: usize, peer: u64, prefixes: Vec<Prefix>, window: &[WindowRow]) -> Raw {
        self.set_window(window);
        self.core.current = exchange;
        self.record(peer, CourierRecord::Inventory(prefixes), Opening::Stop)
    }

    pub fn fetch(&mut self, peer: u64, tag: Tag) -> Raw {
        self.record(peer, CourierRecord::Fetch(tag), Opening::Stop)
    }

    pub fn custody_code(&mut self, exchange: usize, peer: u64, tag: Tag, code: u8) -> Raw {
        let code = Custody::from_code(code).expect("one of five codes");
        self.core.current = exchange;
        self.record(peer, CourierRecord::Custody { tag, code }, Opening::Stop)
    }

    pub fn tomb(&mut self, peer: u64, tag: Tag, secret: [u8; 16]) -> Raw {
        let raw = self.record(peer, CourierRecord::Tomb { tag, s: secret }, Opening::Stop);
        Raw {
            ended: self.drop_ended(),
            ..raw
        }
    }

    // ---- reports: the source's `receive_envelope`, with its opening steered

    /// The tag stands in the window of some contact; whose it is makes no difference to a report.
    fn report(&mut self, peer: u64, tag: Tag, expiry: u32, opening: Opening) -> Raw {
        let contact = self.device().contacts[0].id.0;
        self.set_window(&[WindowRow {
            contact,
            dir: b'I',
            generation: 0,
            index: 0,
            tag,
        }]);
        let envelope = courier::Envelope {
            tag,
            c: [0; 16],
            expiry_min: expiry,
            copies: 1,
            ct: vec![0; 32 + TAG_LEN],
        };
        self.record(peer, CourierRecord::Envelope(envelope), opening)
    }

    pub fn opened(&mut self, peer: u64, tag: Tag, secret: [u8; 16], expiry: u32) -> Raw {
        self.report(peer, tag, expiry, Opening::Message(secret))
    }

    /// A ciphertext that does not authenticate, or one that opens to no message; the source treats both alike.
    pub fn failed(&mut self, peer: u64, tag: Tag, authentic: bool) -> Raw {
        let opening = if authentic { Opening::NoMessage } else { Opening::Fails };
        self.report(peer, tag, u32::MAX, opening)
    }

    // ---- the source's other calls

    fn acting(&mut self, call: impl FnOnce(&mut Core<Backend>, &mut Vec<Action>)) -> Raw {
        let mut actions = Vec::new();
        call(&mut self.core, &mut actions);
        self.check_blobs(&actions);
        Raw {
            actions: actions.iter().filter_map(action_out).collect(),
            ended: self.drop_ended(),
            ..Raw::default()
        }
    }

    pub fn store_tombstone(&mut self, tag: Tag, secret: [u8; 16], expiry: u32) -> Raw {
        let tombstone = Tombstone {
            tag,
            s: secret,
            expiry_min: expiry,
        };
        self.acting(|core, actions| core.store_tombstone(tombstone, actions))
    }

    pub fn maintain(&mut self) -> Raw {
        self.acting(|core, actions| core.maintain_couriers(actions))
    }

    /// The lists that open an exchange, the empty one last.
    pub fn inventory_of_ours(&self, peer: u64) -> Vec<Vec<Prefix>> {
        let lists = self.core.inventory(ContactId(peer));
        lists
            .into_iter()
            .map(|list| match list {
                CourierRecord::Inventory(prefixes) => prefixes,
                _ => unreachable!("an inventory has lists only"),
            })
            .collect()
    }

    /// The contact has this route key and a send chain where it was sealed; answers the key before.
    fn lend_route(&mut self, new: &NewOwn) -> Zeroizing<[u8; 32]> {
        let contact = self.core.contact_mut(ContactId(new.contact));
        contact.send = Some(SendChain {
            gen_: new.generation,
            dir: dir_in(new.dir),
            idx: new.index,
            key: key(0),
        });
        std::mem::replace(&mut contact.route_key, Zeroizing::new(new.route_key))
    }

    /// The own row that `own_envelope` makes; it is not yet held. A contact that is not known has no key to lend.
    pub fn own_envelope(&mut self, new: &NewOwn) -> Option<post::OwnRow> {
        let id = ContactId(new.contact);
        let before = self.knows(new.contact).then(|| self.lend_route(new));
        let outgoing = outgoing(new);
        let inner = new.ciphertext.len().saturating_sub(TAG_LEN);
        let own = self
            .core
            .own_envelope(id, &outgoing.queued, Zeroizing::new(new.secret), inner)
            .expect("the backend has no fault here");
        if let Some(before) = before {
            self.core.contact_mut(id).route_key = before;
        }
        own.map(|own| own_out(new.contact, new.message, &outgoing, &own))
    }

    pub fn hold_own(&mut self, new: &NewOwn, row: &post::OwnRow) {
        let mut outgoing = outgoing(new);
        outgoing.created_s = self.core.now_s;
        outgoing.envelope = Some(crate::state::OwnEnvelope {
            tag: row.tag,
            s: Zeroizing::new(row.secret),
            expiry_min: row.expiry,
            copies: row.copies,
            renewed: row.renewed,
        });
        let contact = self.core.contact_mut(ContactId(new.contact));
        contact.queued.insert(new.message, outgoing);
    }

    /// A queued message whose envelope is gone is not held here.
    fn drop_ended(&mut self) -> usize {
        let before = self.own_count();
        for contact in &mut self.device_mut().contacts {
            contact.queued.retain(|_, outgoing| outgoing.envelope.is_some());
        }
        before - self.own_count()
    }

    pub fn blob(&self, slot: u64) -> Option<Vec<u8>> {
        let held = self.device().held.get(&slot)?;
        Some(held.row(slot).state.blob)
    }
}

//! The source's calls, one by one, to be timed: `ready` makes what a call takes, `run` is the source's own function and nothing else,
//! `answer` reads what it gave. For one call the source's own function would answer otherwise, and that of `turned.rs` stands for it.

mod turned;

use super::convert::{
    action_out, dir_in, dir_out, envelope_in, held_in, held_out, own_out, reply_out, verification_in,
};
use super::{Action, ContactId, Core, CoreError, SessionLink, couriering};
use crate::PairingRole;
use crate::backend::{Asked, Backend, Opening, steered};
use crate::card::Card;
use crate::chain::{Dir, Queued, ReceiveChain, Receiver, SendChain, Skipped, TAG_LEN};
use crate::courier::{self, Custody};
use crate::data::{CourierRecord, read_leb128};
use crate::pairing::Paired;
use crate::raw;
use crate::state::{
    BLOB_VERSION, Contact, CourierConfig, CourierRow, Device, Held, InvalidBlob, Outgoing, OwnEnvelope, Persisted,
    Tombstone,
};
use alloc::collections::{BTreeMap, BTreeSet};
use post::{Answer, Bytes, Call, ChainRow, FileRecord, NewOwn, OwnRow, Prefix, SkippedRow, Tag, WindowRow};
use std::marker::PhantomData;
use zeroize::Zeroizing;

/// What a call may change, but the exchange.
#[derive(Clone, Default)]
struct Holdings {
    held: BTreeMap<u64, Held>,
    next_slot: u64,
    queued: Vec<BTreeMap<u32, Outgoing>>,
    bad_tags: BTreeSet<(ContactId, Tag)>,
}

pub struct Timed {
    core: Core<Backend>,
    kept: Holdings,
    /// The lists that the exchange has had: an exchange can't be copied, and so it is made again.
    lists: Vec<Vec<Prefix>>,
    /// Whether a tomb of a carried row is that of `turned.rs`.
    limited: bool,
}

/// A call and what it takes, as the source has it.
pub enum Ready {
    Record(Record),
    Store(Stored),
    Own(Own),
    Maintain,
    Inventory(u64),
    Window(Window),
    Blob(u64),
    Blobs,
    Restore(Rows),
    Turn(Turn),
}

pub struct Turn {
    tag: Tag,
    secret: [u8; 16],
}
pub struct Record(ContactId, CourierRecord, Opening);
pub struct Stored(Tombstone);
pub struct Own {
    contact: ContactId,
    message: u32,
    outgoing: Outgoing,
    secret: [u8; 16],
}
pub struct Window(Receiver);
pub struct Rows {
    device: Persisted,
    rows: Vec<CourierRow>,
    /// Whether one row is to be read, and not a file.
    one: bool,
}

/// What a call gave.
pub struct Gave(Given);

enum Given {
    Record(Result<bool, CoreError>, Vec<CourierRecord>, Vec<Action>, Option<Asked>),
    Actions(Vec<Action>),
    Own(Own, Option<OwnEnvelope>),
    Lists(Vec<CourierRecord>),
    Window(Vec<(Dir, u8, u32)>),
    Blob(Option<CourierRow>),
    Blobs(Vec<CourierRow>),
    Restored(Result<Device, InvalidBlob>, bool),
}

fn key() -> Zeroizing<[u8; 32]> {
    Zeroizing::new([0; 32])
}

/// A contact's number in the bytes of a key: an envelope that is ours is opened with it.
fn key_of(contact: u64) -> Zeroizing<[u8; 32]> {
    let mut key = key();
    key[..8].copy_from_slice(&contact.to_be_bytes());
    key
}

fn paired(id: u64) -> Paired {
    let peer = Card { caps: 0, beacon_day: 0, beacon_key: key(), name: String::new(), static_ek: None };
    Paired {
        role: PairingRole::A,
        th: [0; 48],
        nonce_b: [0; 16],
        peer,
        pair_id: [0; 16],
        chain_key: key(),
        door_a_to_b: key(),
        door_b_to_a: key(),
        route_key: Zeroizing::new(raw::route_key_of(id)),
    }
}

fn skipped(dir: Dir, generation: u8, index: u32, contact: u64) -> Skipped {
    Skipped { gen_: generation, dir, idx: index, key: key_of(contact), created_s: 0 }
}

fn receiver(skipped_rows: &[u8], chain_rows: &[u8]) -> Receiver {
    let dir = |label| dir_in(post::Dir::of(label).expect("a direction"));
    let skipped_rows = skipped_rows.chunks_exact(SkippedRow::WIDTH).map(SkippedRow::read);
    let chain_rows = chain_rows.chunks_exact(ChainRow::WIDTH).map(ChainRow::read);
    Receiver {
        skipped: skipped_rows.map(|row| skipped(dir(row.dir), row.generation, row.index, 0)).collect(),
        chains: chain_rows
            .map(|row| ReceiveChain {
                gen_: row.generation,
                dir: dir(row.dir),
                next: row.next,
                key: key(),
                superseded_s: None,
            })
            .collect(),
    }
}

/// The records of held rows behind that of the next slot.
fn file(next_slot: u64, rows: impl Iterator<Item = CourierRow>) -> Bytes {
    let mut records = vec![FileRecord::NextSlot(next_slot)];
    records.extend(rows.map(|row| {
        let kind = if row.state.blob[0] == 0 { b'C' } else { b'T' };
        FileRecord::Row(kind, row.slot, row.state.blob)
    }));
    post::encode_file(&records)
}

// ---- a post and what it holds

impl Default for Timed {
    fn default() -> Self {
        let device = Device {
            beacon_day: 0,
            beacon_key: key(),
            next_contact: u64::MAX,
            read_receipts: true,
            courier: CourierConfig::default(),
            contacts: Vec::new(),
            held: BTreeMap::new(),
            next_slot: 0,
        };
        let core = Core {
            device: Some(device),
            bad_tags: BTreeSet::new(),
            tags: BTreeMap::new(),
            now_s: 0,
            sessions: vec![None],
            current: 0,
            backend: PhantomData,
        };
        Self { core, kept: Holdings::default(), lists: Vec::new(), limited: false }
    }
}

impl Timed {
    fn device(&self) -> &Device {
        self.core.device.as_ref().expect("there from the start")
    }

    fn device_mut(&mut self) -> &mut Device {
        self.core.device.as_mut().expect("there from the start")
    }

    pub fn contact(&mut self, id: u64, verification: post::Verification) {
        let mut contact = Contact::new(ContactId(id), paired(id));
        contact.verification = verification_in(verification);
        self.device_mut().contacts.push(contact);
    }

    pub fn setting(&mut self, copies: u8, lifetime: u16) {
        self.device_mut().courier = CourierConfig::new(true, copies, lifetime).expect("in its range");
    }

    pub fn clock(&mut self, seconds: u64) {
        self.core.now_s = seconds;
    }

    pub fn hold(&mut self, slot: u64, held: &post::Held) {
        let device = self.device_mut();
        device.held.insert(slot, held_in(held));
        device.next_slot = slot + 1;
    }

    /// Makes an own envelope and holds it.
    pub fn hold_own(&mut self, new: &NewOwn) {
        let ready = self.own(new);
        let Gave(Given::Own(own, Some(made))) = self.run(Ready::Own(ready)) else {
            panic!("no envelope of message {}", new.message);
        };
        self.made(own, made);
    }

    pub fn maintain(&mut self) {
        self.run(Ready::Maintain);
    }

    pub fn bad_tag(&mut self, peer: u64, tag: Tag) {
        self.core.bad_tags.insert((ContactId(peer), tag));
    }

    /// The rows have the tags of `route_tag`. They are in the source's cache once a call has computed them.
    pub fn window(&mut self, rows: &[WindowRow]) {
        for row in rows {
            let dir = dir_in(post::Dir::of(row.dir).expect("a direction"));
            let contact = self.core.contact_mut(ContactId(row.contact));
            contact.receiver.skipped.push(skipped(dir, row.generation, row.index, row.contact));
        }
    }

    pub fn forget_tags(&mut self) {
        self.core.tags.clear();
    }

    /// The exchange has had these lists before a call.
    pub fn exchange(&mut self, lists: Vec<Vec<Prefix>>) {
        self.lists = lists;
    }

    /// From now on a carried row that turns obeys the limit of 1,024 tombstones, which the source's own does not.
    pub fn limit_turned(&mut self) {
        self.limited = true;
    }

    /// What `restore` goes back to.
    pub fn keep(&mut self) {
        let device = self.device();
        self.kept = Holdings {
            held: device.held.clone(),
            next_slot: device.next_slot,
            queued: device.contacts.iter().map(|contact| contact.queued.clone()).collect(),
            bad_tags: self.core.bad_tags.clone(),
        };
    }

    pub fn restore(&mut self) {
        let kept = self.kept.clone();
        self.core.bad_tags = kept.bad_tags;
        let device = self.device_mut();
        device.held = kept.held;
        device.next_slot = kept.next_slot;
        for (contact, queued) in device.contacts.iter_mut().zip(kept.queued) {
            contact.queued = queued;
        }
    }

    /// The saved file of the held rows, each written by the source.
    pub fn saved(&self) -> Bytes {
        let device = self.device();
        file(device.next_slot, device.held.iter().map(|(&slot, held)| held.row(slot)))
    }

    /// By contact as added and message number; a queued message without an envelope is none.
    pub fn own_rows(&self) -> Vec<OwnRow> {
        let rows = self.device().contacts.iter().flat_map(|contact| {
            contact.queued.iter().filter_map(|(&message, outgoing)| {
                let own = outgoing.envelope.as_ref()?;
                Some(own_out(contact.id.0, message, outgoing, own))
            })
        });
        rows.collect()
    }
}

// ---- what a call takes

impl Timed {
    fn record(peer: u64, record: CourierRecord) -> Ready {
        Ready::Record(Record(ContactId(peer), record, Opening::Stop))
    }

    fn own(&mut self, new: &NewOwn) -> Own {
        let contact = self.core.contact_mut(ContactId(new.contact));
        assert!(*contact.route_key == new.route_key, "another route key than the contact's");
        contact.send = Some(SendChain { gen_: new.generation, dir: dir_in(new.dir), idx: new.index, key: key() });
        let queued = Queued { gen_: new.generation, idx: new.index, ct: new.ciphertext.0.clone() };
        Own {
            contact: ContactId(new.contact),
            message: new.message,
            outgoing: Outgoing { created_s: 0, queued, envelope: None },
            secret: new.secret,
        }
    }

    /// A fresh exchange that has had its lists.
    fn open_exchange(&mut self, peer: u64) {
        self.core.sessions[0] =
            Some(SessionLink { contact: ContactId(peer), exchange: couriering::Exchange::default() });
        for list in self.lists.clone() {
            self.run(Self::record(peer, CourierRecord::Inventory(list)));
        }
    }

    /// A report: the source's `receive_envelope` with one row in its window, its opening stubbed.
    fn report(&mut self, peer: u64, tag: Tag, expiry: u32, opening: Opening) -> Ready {
        let contact = &mut self.device_mut().contacts[0];
        let id = contact.id;
        contact.receiver.skipped = vec![skipped(Dir::I, 0, 0, id.0)];
        self.core.tags = BTreeMap::from([((id, Dir::I, 0, 0), tag)]);
        let envelope = courier::Envelope { tag, c: [0; 16], expiry_min: expiry, copies: 1, ct: vec![0; 32 + TAG_LEN] };
        Ready::Record(Record(ContactId(peer), CourierRecord::Envelope(envelope), opening))
    }

    fn rows(&self, blobs: impl Iterator<Item = (u64, Vec<u8>)>, one: bool) -> Ready {
        let state = |blob| Persisted { blob, version: BLOB_VERSION };
        Ready::Restore(Rows {
            device: self.device().row(),
            rows: blobs.map(|(slot, blob)| CourierRow { slot, state: state(blob) }).collect(),
            one,
        })
    }

    fn file_rows(&self, file: &[u8]) -> Ready {
        let records = post::records(file).expect("a file");
        let rows = records.into_iter().filter_map(|record| match record {
            FileRecord::Row(_, slot, blob) => Some((slot, blob)),
            FileRecord::NextSlot(_) => None,
        });
        self.rows(rows, false)
    }

    /// A record from a peer.
    fn received(&mut self, call: &Call) -> Option<Ready> {
        Some(match call {
            Call::Envelope { peer, envelope, .. } => {
                Self::record(*peer, CourierRecord::Envelope(envelope_in(envelope)))
            }
            Call::Inventory { peer, prefixes, .. } => {
                self.open_exchange(*peer);
                Self::record(*peer, CourierRecord::Inventory(prefixes.as_chunks::<8>().0.to_vec()))
            }
            Call::Fetch { peer, tag, .. } => Self::record(*peer, CourierRecord::Fetch(*tag)),
            Call::CustodyCode { peer, tag, code, .. } => {
                self.open_exchange(*peer);
                let code = Custody::from_code(code.code()).expect("one of five");
                Self::record(*peer, CourierRecord::Custody { tag: *tag, code })
            }
            Call::Tomb { tag, secret, .. } if self.limited => Ready::Turn(Turn { tag: *tag, secret: *secret }),
            Call::Tomb { peer, tag, secret, .. } => Self::record(*peer, CourierRecord::Tomb { tag: *tag, s: *secret }),
            Call::Opened { peer, tag, secret, expiry, .. } => {
                self.report(*peer, *tag, *expiry, Opening::Message(*secret))
            }
            Call::Failed { peer, tag } => self.report(*peer, *tag, u32::MAX, Opening::Fails),
            _ => return None,
        })
    }

    /// `None` for a call that the source has not.
    pub fn ready(&mut self, call: &Call) -> Option<Ready> {
        Some(match call {
            Call::StoredTombstone { tag, secret, expiry, .. } => {
                Ready::Store(Stored(Tombstone { tag: *tag, s: *secret, expiry_min: *expiry }))
            }
            Call::OwnEnvelope(new) => Ready::Own(self.own(new)),
            Call::Maintenance { .. } => Ready::Maintain,
            Call::InventoryOfOurs { peer, .. } => Ready::Inventory(*peer),
            Call::Window { skipped, chains, .. } => Ready::Window(Window(receiver(skipped, chains))),
            Call::RowBlob { slot, .. } => Ready::Blob(*slot),
            Call::RowRead { blob } => self.rows([(0, blob.0.clone())].into_iter(), true),
            Call::Save { .. } => Ready::Blobs,
            Call::Load { file } => self.file_rows(file),
            _ => return self.received(call),
        })
    }
}

// ---- the call

impl Timed {
    fn receive(&mut self, Record(peer, record, opening): Record) -> Given {
        let (mut replies, mut actions) = (Vec::new(), Vec::new());
        let core = &mut self.core;
        let (result, asked) =
            steered(opening, || core.courier_record(peer, record, &mut replies, &mut Vec::new(), &mut actions));
        Given::Record(result, replies, actions, asked)
    }

    fn act(&mut self, call: impl FnOnce(&mut Core<Backend>, &mut Vec<Action>)) -> Given {
        let mut actions = Vec::new();
        call(&mut self.core, &mut actions);
        Given::Actions(actions)
    }

    fn turn(&mut self, Turn { tag, secret }: &Turn) -> Given {
        let mut actions = Vec::new();
        let malformed = turned::receive_tomb(self.device_mut(), tag, secret, &mut actions);
        Given::Record(Ok(malformed), Vec::new(), actions, None)
    }

    fn make_own(&mut self, own: Own) -> Given {
        let queued = &own.outgoing.queued;
        let inner = queued.ct.len() - TAG_LEN;
        let made = self.core.own_envelope(own.contact, queued, Zeroizing::new(own.secret), inner);
        Given::Own(own, made.expect("the backend has no fault here"))
    }

    #[inline(never)]
    pub fn run(&mut self, ready: Ready) -> Gave {
        Gave(match ready {
            Ready::Record(record) => self.receive(record),
            Ready::Store(Stored(tombstone)) => self.act(|core, actions| core.store_tombstone(tombstone, actions)),
            Ready::Own(own) => self.make_own(own),
            Ready::Maintain => self.act(|core, actions| core.maintain_couriers(actions)),
            Ready::Inventory(peer) => Given::Lists(self.core.inventory(ContactId(peer))),
            Ready::Window(Window(receiver)) => Given::Window(receiver.window()),
            Ready::Blob(slot) => Given::Blob(self.device().held.get(&slot).map(|held| held.row(slot))),
            Ready::Blobs => Given::Blobs(self.device().held.iter().map(|(&slot, held)| held.row(slot)).collect()),
            Ready::Restore(Rows { device, rows, one }) => {
                Given::Restored(Device::restore(&device, &[], &[], &rows), one)
            }
            Ready::Turn(turn) => self.turn(&turn),
        })
    }
}

// ---- what it gave

fn done(malformed: bool, replies: Vec<CourierRecord>, actions: &[Action], searched: usize) -> Answer {
    Answer::Done {
        malformed,
        replies: replies.into_iter().map(reply_out).collect(),
        actions: actions.iter().filter_map(action_out).collect(),
        searched,
    }
}

/// The window row that it went on to open with.
fn ours((key, aad): Asked) -> Answer {
    let (index, _) = read_leb128(&aad[1..]).expect("the source wrote it");
    Answer::Ours { contact: u64::from_be_bytes(post::array(&key, 0)), generation: aad[0], index }
}

fn listed(lists: Vec<CourierRecord>) -> Answer {
    let prefixes = lists.into_iter().flat_map(|list| match list {
        CourierRecord::Inventory(prefixes) => prefixes,
        _ => unreachable!("an inventory has lists only"),
    });
    Answer::Listed(prefixes.collect())
}

impl Timed {
    /// What was restored becomes the held rows.
    fn restored(&mut self, device: Device, one: bool) -> Answer {
        if one {
            return Answer::Row(device.held.values().next().map(held_out));
        }
        let mine = self.device_mut();
        (mine.held, mine.next_slot) = (device.held, device.next_slot);
        Answer::nothing()
    }

    /// What was made is held, which the source's caller does.
    fn made(&mut self, own: Own, made: OwnEnvelope) -> Answer {
        let mut outgoing = own.outgoing;
        let answer = Answer::Own(own_out(own.contact.0, own.message, &outgoing, &made));
        outgoing.envelope = Some(made);
        self.core.contact_mut(own.contact).queued.insert(own.message, outgoing);
        answer
    }

    /// The envelopes that the same call brings with every tombstone taken out: request Three's count, which the source does not say.
    fn searched(&mut self, call: &Call) -> usize {
        let held = self.device().held.clone();
        self.device_mut().held.retain(|_, held| matches!(held, Held::Carried { .. }));
        let ready = self.ready(call).expect("a call of the source");
        let Gave(Given::Record(Ok(false), replies, ..)) = self.run(ready) else {
            panic!("malformed, or no record, without tombstones");
        };
        self.device_mut().held = held;
        replies.iter().filter(|reply| matches!(reply, CourierRecord::Envelope(_))).count()
    }

    /// A record that was taken. The end of an inventory, which is the empty list, has the count; it is 0 for all else.
    fn taken(&mut self, call: &Call, replies: Vec<CourierRecord>, actions: &[Action]) -> Answer {
        let searched = match call {
            Call::Inventory { prefixes, .. } if prefixes.is_empty() => self.searched(call),
            _ => 0,
        };
        done(false, replies, actions, searched)
    }

    pub fn answer(&mut self, call: &Call, gave: Gave) -> Answer {
        match gave.0 {
            Given::Record(Err(_), _, _, asked) => ours(asked.expect("only an opening has a fault")),
            Given::Record(Ok(true), replies, actions, _) => done(true, replies, &actions, 0),
            Given::Record(Ok(false), replies, actions, _) => self.taken(call, replies, &actions),
            Given::Actions(actions) => done(false, Vec::new(), &actions, 0),
            Given::Own(_, None) => Answer::NoEnvelope,
            Given::Own(own, Some(made)) => self.made(own, made),
            Given::Lists(lists) => listed(lists),
            Given::Window(rows) => Answer::Window(
                rows.into_iter().map(|(dir, generation, index)| (dir_out(dir), generation, index)).collect(),
            ),
            Given::Blob(row) => Answer::Blob(row.map(|row| row.state.blob.into())),
            Given::Blobs(rows) => Answer::Saved(file(self.device().next_slot, rows.into_iter())),
            Given::Restored(Err(_), true) => Answer::Row(None),
            Given::Restored(Err(_), false) => Answer::Refused(8),
            Given::Restored(Ok(device), one) => self.restored(device, one),
        }
    }
}

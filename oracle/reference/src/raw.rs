//! The source's plain functions, one by one, for checks that put a single input to them.

use crate::backend::Backend;
use crate::chain::{ReceiveChain, Receiver, Skipped};
use crate::core::ContactId;
use crate::core::convert::{dir_in, dir_out, held_in, held_out};
use crate::courier::{self, Custody, Envelope};
use crate::data;
use crate::kdf;
use crate::state::{BLOB_VERSION, CourierConfig, CourierRow, Device, Persisted};
use post::{ChainRow, Dir, SkippedRow};
use zeroize::Zeroizing;

/// The route key that a contact of the reference has, so that a window row can have the tag of `route_tag`.
pub fn route_key_of(contact: u64) -> [u8; 32] {
    let mut key = [0x5a; 32];
    key[..8].copy_from_slice(&contact.to_be_bytes());
    key
}

fn dir(label: u8) -> crate::chain::Dir {
    dir_in(Dir::of(label).expect("a direction"))
}

pub fn labelled(label: &[u8]) -> Vec<u8> {
    kdf::labelled(label)
}

pub fn leb128(value: u32) -> Vec<u8> {
    let mut output = Vec::new();
    data::leb128(value, &mut output);
    output
}

pub fn read_leb128(input: &[u8]) -> Option<(u32, usize)> {
    data::read_leb128(input)
}

/// Whether the source's wire reader refuses one record of this type and body.
pub fn wire_refuses(kind: u8, body: &[u8]) -> bool {
    let mut plaintext = vec![kind];
    data::leb128(body.len() as u32, &mut plaintext);
    plaintext.extend_from_slice(body);
    data::parse(&plaintext).is_err()
}

pub fn route_tag(key: &[u8; 32], label: u8, generation: u8, index: u32) -> [u8; 16] {
    courier::route_tag::<Backend>(key, dir(label), generation, index).expect("no backend fault")
}

pub fn delivered(key: &[u8; 32]) -> [u8; 16] {
    *courier::delivered::<Backend>(key).expect("no backend fault")
}

pub fn commitment(secret: &[u8; 16]) -> [u8; 16] {
    courier::commitment::<Backend>(secret)
}

pub fn tombstone_matches(commitment: &[u8; 16], secret: &[u8; 16]) -> bool {
    courier::tombstone_matches::<Backend>(commitment, secret).into()
}

pub fn custody_of(code: u8) -> Option<u8> {
    Custody::from_code(code).map(|custody| custody as u8)
}

pub fn valid(length: usize, copies: u8, expiry: u32, minute: u32) -> bool {
    let envelope = Envelope {
        tag: [0; 16],
        c: [0; 16],
        expiry_min: expiry,
        copies,
        ct: vec![0; length],
    };
    envelope.valid(minute)
}

/// An envelope read from its bytes and written again.
pub fn envelope_again(bytes: &[u8]) -> Option<Vec<u8>> {
    let mut output = Vec::new();
    Envelope::decode(bytes)?.encode(&mut output);
    Some(output)
}

pub fn setting_passes(copies: u8, lifetime: u16) -> bool {
    CourierConfig::new(true, copies, lifetime).is_some()
}

/// A default setting's copies and lifetime, and whether it is enabled.
pub fn default_setting() -> (bool, u8, u16) {
    let setting = CourierConfig::default();
    (setting.enabled, setting.copies, setting.lifetime_min)
}

pub fn window(skipped: &[SkippedRow], chains: &[ChainRow]) -> Vec<(Dir, u8, u32)> {
    let key = || Zeroizing::new([0; 32]);
    let receiver = Receiver {
        skipped: skipped
            .iter()
            .map(|row| Skipped {
                gen_: row.generation,
                dir: dir(row.dir),
                idx: row.index,
                key: key(),
                created_s: 0,
            })
            .collect(),
        chains: chains
            .iter()
            .map(|row| ReceiveChain {
                gen_: row.generation,
                dir: dir(row.dir),
                next: row.next,
                key: key(),
                superseded_s: None,
            })
            .collect(),
    };
    let listed = receiver.window();
    listed
        .into_iter()
        .map(|(dir, generation, index)| (dir_out(dir), generation, index))
        .collect()
}

pub fn blob(held: &post::Held) -> Vec<u8> {
    held_in(held).row(0).state.blob
}

/// Rows with their slots, and the next slot.
pub type Restored = (Vec<(u64, post::Held)>, u64);

/// `Device::restore` of these held rows alone, with this count of contacts: the rows and the next slot.
pub fn restore(rows: &[(u64, Vec<u8>)], next_contact: u64) -> Option<Restored> {
    let mut device = vec![0; 4 + 32];
    device.extend_from_slice(&next_contact.to_be_bytes());
    device.extend_from_slice(&[1, 1, 6]);
    device.extend_from_slice(&1440u16.to_be_bytes());
    let state = |blob: Vec<u8>| Persisted {
        blob,
        version: BLOB_VERSION,
    };
    let rows: Vec<CourierRow> = rows
        .iter()
        .map(|(slot, blob)| CourierRow {
            slot: *slot,
            state: state(blob.clone()),
        })
        .collect();
    let device = Device::restore(&state(device), &[], &[], &rows).ok()?;
    let held = device.held.iter().map(|(&slot, held)| (slot, held_out(held))).collect();
    Some((held, device.next_slot))
}

/// Where the blob of a carried row has its copies; its ciphertext comes next.
const COPIES: usize = 45;

/// Whether a blob is that of a carried row with 0 copies, whatever else it says.
pub fn is_without_copies(blob: &[u8]) -> bool {
    blob.first() == Some(&0) && blob.get(COPIES) == Some(&0)
}

fn restored_row(blob: Vec<u8>) -> Option<post::Held> {
    let (rows, _) = restore(&[(0, blob)], u64::MAX)?;
    rows.into_iter().next().map(|(_, held)| held)
}

/// `Held::decode`, which `Device::restore` calls. Two numbers of a carried row are read as others and put back. Restore also asks that the depositor
/// is below a count; the highest number can't be, so it is read as 0. And the source reads no row with 0 copies, so they are read as 1 (request Five).
pub fn read_row(blob: &[u8]) -> Option<post::Held> {
    let mut lent = blob.to_vec();
    let highest = blob.first() == Some(&0) && blob.get(1..9) == Some(&[0xff; 8]);
    if highest {
        lent[1..9].fill(0);
    }
    let without_copies = is_without_copies(blob);
    if without_copies {
        assert_eq!(
            restored_row(lent.clone()),
            None,
            "the source by itself reads no row with 0 copies"
        );
        lent[COPIES] = 1;
    }
    let mut held = restored_row(lent)?;
    if let post::Held::Carried { depositor, envelope } = &mut held {
        if highest {
            *depositor = ContactId(u64::MAX).0;
        }
        if without_copies {
            envelope.copies = 0;
        }
    }
    Some(held)
}

//! Labels, tags and commitments (the parts of kdf.rs, data.rs and courier.rs that document 01 names).

use crate::{Rules, Wrong};
use post::Tag;

const SERVICE: &[u8] = b"cairn-r1 ";

/// A two-byte length that counts both, the service with its space, the label.
pub fn labelled(label: &[u8]) -> Vec<u8> {
    let length = (SERVICE.len() + label.len()) as u16;
    [&length.to_be_bytes(), SERVICE, label].concat()
}

/// Seven bits a byte, lowest first; every byte but the last has its highest bit set.
pub fn leb128(value: u32) -> Vec<u8> {
    let count = (1..5).find(|count| u64::from(value) < 1 << (7 * count)).unwrap_or(5);
    (0..count)
        .map(|place| {
            let seven = ((value >> (7 * place)) & 0x7f) as u8;
            if place + 1 < count { seven | 0x80 } else { seven }
        })
        .collect()
}

fn first16(digest: [u8; 48]) -> [u8; 16] {
    digest[..16].try_into().expect("16 of 48")
}

pub fn route_tag(key: &[u8; 32], dir: u8, generation: u8, index: u32) -> Tag {
    let message = [labelled(b"route"), vec![dir, generation], leb128(index)].concat();
    first16(hashes::hmac(key, &message))
}

pub fn commitment(secret: &[u8; 16]) -> [u8; 16] {
    first16(hashes::sha384(&[labelled(b"delivered"), secret.to_vec()].concat()))
}

impl Rules {
    pub(crate) fn own_tag(&self, key: &[u8; 32], dir: u8, generation: u8, index: u32) -> Tag {
        match self.wrong {
            Some(Wrong::TagOfTheOtherDirection) => route_tag(key, dir ^ b'I' ^ b'R', generation, index),
            Some(Wrong::IndexInFourBytes) => {
                let fixed = index.to_be_bytes().to_vec();
                let message = [labelled(b"route"), vec![dir, generation], fixed].concat();
                first16(hashes::hmac(key, &message))
            }
            Some(Wrong::LengthCountsTheLabelOnly) => {
                let length = vec![0, 5];
                let label = [SERVICE, b"route"].concat();
                let message = [length, label, vec![dir, generation], leb128(index)].concat();
                first16(hashes::hmac(key, &message))
            }
            _ => route_tag(key, dir, generation, index),
        }
    }
}

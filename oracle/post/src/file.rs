//! The saved file as records, without a judgement of what they say.

use crate::{Bytes, array};

#[derive(Debug, Clone, PartialEq, Eq, PartialOrd, Ord)]
pub enum FileRecord {
    /// `HN`
    NextSlot(u64),
    /// `HC` or `HT`; the first field is the second letter.
    Row(u8, u64, Vec<u8>),
}

fn next_record(file: &[u8]) -> Option<(FileRecord, usize)> {
    match file {
        [b'H', b'N', rest @ ..] if rest.len() >= 8 => {
            Some((FileRecord::NextSlot(u64::from_be_bytes(array(rest, 0))), 10))
        }
        [b'H', kind @ (b'C' | b'T'), rest @ ..] if rest.len() >= 10 => {
            let slot = u64::from_be_bytes(array(rest, 0));
            let length = usize::from(u16::from_be_bytes(array(rest, 8)));
            let blob = rest.get(10..10 + length)?;
            Some((FileRecord::Row(*kind, slot, blob.to_vec()), 12 + length))
        }
        _ => None,
    }
}

/// A file of these records, in this order.
pub fn encode_file(records: &[FileRecord]) -> Bytes {
    let mut file = Vec::new();
    for record in records {
        match record {
            FileRecord::NextSlot(slot) => {
                file.extend_from_slice(b"HN");
                file.extend_from_slice(&slot.to_be_bytes());
            }
            FileRecord::Row(kind, slot, blob) => {
                file.extend_from_slice(&[b'H', *kind]);
                file.extend_from_slice(&slot.to_be_bytes());
                file.extend_from_slice(&(blob.len() as u16).to_be_bytes());
                file.extend_from_slice(blob);
            }
        }
    }
    file.into()
}

/// `None` where a mark or a length is wrong.
pub fn records(mut file: &[u8]) -> Option<Vec<FileRecord>> {
    let mut found = Vec::new();
    while !file.is_empty() {
        let (record, size) = next_record(file)?;
        found.push(record);
        file = &file[size..];
    }
    Some(found)
}

/// The records in an order of their own after the first, so that files differing only in order are equal.
pub fn canonical(file: &[u8]) -> Option<Vec<FileRecord>> {
    let mut found = records(file)?;
    if let Some(rows) = found.get_mut(1..) {
        rows.sort();
    }
    Some(found)
}

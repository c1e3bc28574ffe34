//! chain.rs, courier.rs, state.rs, kdf.rs, data.rs: functions of their inputs alone.

use super::bench::{carried, tag, tombstone};
use super::{Check, Outcome, holds, same};
use post::{ChainRow, Dir, SkippedRow};
use reference::raw;

fn skipped(count: u32) -> Vec<SkippedRow> {
    let row = |index| SkippedRow {
        dir: b'R',
        generation: 1,
        index,
    };
    (0..count).map(row).collect()
}

fn chain(generation: u8, next: u64) -> ChainRow {
    ChainRow {
        dir: b'I',
        generation,
        next,
    }
}

fn skipped_then_chains() -> Outcome {
    let listed = raw::window(&skipped(498), &[chain(1, 3), chain(2, (1 << 32) - 1)]);
    same(listed.len(), 500)?;
    same(listed[0], (Dir::R, 1, 0))?;
    same(listed[498], (Dir::I, 2, u32::MAX))?;
    same(listed[499], (Dir::I, 1, 3))
}

fn one_chain_entry() -> Outcome {
    let listed = raw::window(&skipped(499), &[chain(3, 7)]);
    same(listed.len(), 500)?;
    same(listed[499], (Dir::I, 3, 7))
}

fn no_chain_entry() -> Outcome {
    same(raw::window(&skipped(500), &[chain(3, 7)]).len(), 500)?;
    same(raw::window(&skipped(500), &[chain(3, 7)])[499], (Dir::R, 1, 499))?;
    same(raw::window(&skipped(3), &[chain(3, 1 << 32)]).len(), 3)
}

fn lengths() -> Outcome {
    let valid = |length| raw::valid(length, 1, 11, 10);
    holds(valid(2064), "2,064 is valid")?;
    holds(
        !valid(2065) && !valid(15) && !valid(4064),
        "2,065, 15 and 4,064 are not",
    )
}

fn expiry_after_now() -> Outcome {
    holds(raw::valid(48, 1, 11, 10), "11 at 10")?;
    holds(!raw::valid(48, 1, 10, 10), "10 at 10")?;
    holds(!raw::valid(48, 0, 11, 10), "0 copies")
}

fn settings() -> Outcome {
    holds(
        raw::setting_passes(1, 60) && raw::setting_passes(16, 10_080),
        "the ends pass",
    )?;
    let outside = [(0, 60), (17, 60), (1, 59), (1, 10_081)];
    holds(
        outside
            .iter()
            .all(|(copies, lifetime)| !raw::setting_passes(*copies, *lifetime)),
        "outside fails",
    )?;
    same(raw::default_setting(), (true, 6, 1440))
}

fn written_and_read() -> Outcome {
    for copies in [0, 1, 255] {
        let row = carried(5, tag(1), 100, copies);
        same(raw::blob(&row).len(), 94)?;
        same(raw::read_row(&raw::blob(&row)), Some(row))?;
        same(raw::read_row(&raw::blob(&carried(5, tag(1), 0, copies))), None)?;
    }
    let row = tombstone(tag(2), 0);
    same(raw::blob(&row).len(), 37)?;
    same(raw::read_row(&raw::blob(&row)), Some(row))
}

fn row_layout() -> Outcome {
    let blob = raw::blob(&carried(0x0102_0304_0506_0708, tag(0xaa), 0x0b0c_0d0e, 9));
    same(&blob[..9], &[0, 1, 2, 3, 4, 5, 6, 7, 8])?;
    same(&blob[9..25], &[0xaa; 16])?;
    same(&blob[41..46], &[0x0b, 0x0c, 0x0d, 0x0e, 9])?;
    let blob = raw::blob(&tombstone(tag(0xbb), 0x0b0c_0d0e));
    same(&blob[..17], &[&[1][..], &[0xbb; 16]].concat())?;
    same(&blob[33..], &[0x0b, 0x0c, 0x0d, 0x0e])
}

fn labels() -> Outcome {
    same(raw::labelled(b"route"), b"\x00\x0ecairn-r1 route".to_vec())?;
    same(raw::labelled(b""), b"\x00\x09cairn-r1 ".to_vec())?;
    let longest = vec![b'x'; 65_526];
    same(raw::labelled(&longest)[..2].to_vec(), vec![0xff, 0xff])?;
    same(rules::labelled(&longest), raw::labelled(&longest))
}

/// `route_tag` and `commitment` are what document 01's parts make of the standards.
fn tags_from_the_standards() -> Outcome {
    let key = [3; 32];
    let message = b"\x00\x0ecairn-r1 routeI\x07\x80\x01";
    same(
        &raw::route_tag(&key, b'I', 7, 128)[..],
        &hashes::hmac(&key, message)[..16],
    )?;
    let message = [&b"\x00\x12cairn-r1 delivered"[..], &[4; 16]].concat();
    same(&raw::commitment(&[4; 16])[..], &hashes::sha384(&message)[..16])?;
    let secret = hashes::hkdf(&key, &[], b"\x00\x12cairn-r1 delivered", 16);
    same(Some(raw::delivered(&key).to_vec()), secret)
}

fn secrets_open_commitments() -> Outcome {
    let commitment = raw::commitment(&[4; 16]);
    holds(raw::tombstone_matches(&commitment, &[4; 16]), "the secret opens it")?;
    holds(!raw::tombstone_matches(&commitment, &[5; 16]), "another does not")
}

fn envelope_bytes() -> Outcome {
    let bytes: Vec<u8> = (0..60).collect();
    same(raw::envelope_again(&bytes), Some(bytes.clone()))?;
    same(raw::envelope_again(&bytes[..37]), Some(bytes[..37].to_vec()))?;
    same(raw::envelope_again(&bytes[..36]), None)
}

pub const CHECKS: &[Check] = &[
    (
        "skipped keys first, then chains last to first, 500 at most",
        skipped_then_chains,
    ),
    (
        "499 skipped, one chain at next 7: 500 entries, the last index 7",
        one_chain_entry,
    ),
    ("500 skipped: no chain entry; next 2^32: none", no_chain_entry),
    ("ciphertexts of 2,064; 2,065, 15 and 4,064", lengths),
    ("expiry 11 and 10 at minute 10; 0 copies", expiry_after_now),
    ("settings at their ends", settings),
    (
        "carried rows are read back where the expiry is above 0, whatever their copies",
        written_and_read,
    ),
    ("the bytes of a row blob", row_layout),
    ("labels", labels),
    (
        "tags, commitments and secrets from the standards",
        tags_from_the_standards,
    ),
    ("a secret opens its commitment alone", secrets_open_commitments),
    ("the bytes of an envelope", envelope_bytes),
];

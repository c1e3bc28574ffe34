//! A fixed sample of calls with their answers, which the program crates/replay makes again. README.md has the format.

use crate::compare::judge::Seen;
use crate::compare::maker;
use crate::compare::pair::{self, Pair};
use crate::generate::{Generator, Profile};
use crate::tally::{COUNTS, Corner, LOST_FETCHES, READ_BACK, TURNS};
use post::{Action, Answer, Areas, Call, Dir, Envelope, Held, Kind, NewOwn, Reply, Sizes, State, Verification, said};
use std::collections::BTreeSet;
use std::io::Write;
use std::process::ExitCode;

/// What the program's buffer holds.
const LONGEST: usize = 1_048_575;

/// So many tombstone rows the program has.
const MOST_TOMBSTONE_ROWS: usize = 1_100;

/// Calls that bring more bytes than this are few in each list, so that the sample stays small.
const SHORT: usize = 1_000;
const LONG_CALLS: usize = 8;

/// What a call is made with; zeros where it has no such input.
#[derive(Default)]
struct Inputs {
    exchange: u8,
    /// Verification, enabled, custody code or direction.
    small: u8,
    copies: u8,
    generation: u8,
    lifetime: u16,
    /// Contact, peer, seconds, slot or page.
    number: u64,
    expiry: u32,
    index: u32,
    message: u32,
    tag: [u8; 16],
    /// Commitment or secret.
    second: [u8; 16],
    /// The window, the skipped rows, the route key.
    front: Vec<u8>,
    /// The ciphertext, the prefixes, the chain rows, the blob, the file.
    rest: Vec<u8>,
}

fn verification(verification: Verification) -> u8 {
    match verification {
        Verification::Unverified => 0,
        Verification::Verified => 1,
        Verification::Compromised => 2,
    }
}

fn own_inputs(new: &NewOwn) -> Inputs {
    Inputs {
        number: new.contact,
        message: new.message,
        small: new.dir.label(),
        generation: new.generation,
        index: new.index,
        second: new.secret,
        front: new.route_key.to_vec(),
        rest: new.ciphertext.to_vec(),
        ..Inputs::default()
    }
}

/// The inputs of calls that bring no bytes of any length.
fn plain_inputs(call: &Call) -> Inputs {
    let mut inputs = Inputs {
        number: call.peer().unwrap_or(0),
        ..Inputs::default()
    };
    match call {
        Call::Contact {
            id,
            verification: known,
        } => {
            (inputs.number, inputs.small) = (*id, verification(*known));
        }
        Call::Setting {
            enabled,
            copies,
            lifetime,
        } => (inputs.small, inputs.copies, inputs.lifetime) = (u8::from(*enabled), *copies, *lifetime),
        Call::Clock { seconds } => inputs.number = *seconds,
        Call::FreshExchange { exchange, .. } => inputs.exchange = *exchange as u8,
        Call::Fetch { tag, .. } | Call::Failed { tag, .. } => inputs.tag = *tag,
        Call::CustodyCode {
            exchange, tag, code, ..
        } => (inputs.exchange, inputs.tag, inputs.small) = (*exchange as u8, *tag, code.code()),
        Call::Tomb { tag, secret, .. } => (inputs.tag, inputs.second) = (*tag, *secret),
        Call::Opened {
            tag, secret, expiry, ..
        }
        | Call::StoredTombstone {
            tag, secret, expiry, ..
        } => (inputs.tag, inputs.second, inputs.expiry) = (*tag, *secret, *expiry),
        Call::RowBlob { slot: number, .. } | Call::Page { number, .. } => inputs.number = *number,
        _ => {}
    }
    inputs
}

fn inputs(call: &Call) -> Inputs {
    match call {
        Call::Envelope {
            window, peer, envelope, ..
        } => Inputs {
            number: *peer,
            tag: envelope.tag,
            second: envelope.commitment,
            expiry: envelope.expiry,
            copies: envelope.copies,
            front: window.to_vec(),
            rest: envelope.ciphertext.to_vec(),
            ..Inputs::default()
        },
        Call::Inventory {
            window,
            exchange,
            peer,
            prefixes,
            ..
        } => Inputs {
            number: *peer,
            exchange: *exchange as u8,
            front: window.to_vec(),
            rest: prefixes.to_vec(),
            ..Inputs::default()
        },
        Call::OwnEnvelope(new) => own_inputs(new),
        Call::Window { skipped, chains, .. } => Inputs {
            front: skipped.to_vec(),
            rest: chains.to_vec(),
            ..Inputs::default()
        },
        Call::RowRead { blob: rest } | Call::Load { file: rest } => Inputs {
            rest: rest.to_vec(),
            ..Inputs::default()
        },
        _ => plain_inputs(call),
    }
}

/// What the call must answer; zeros where it says no such thing.
#[derive(Default)]
struct Expected {
    /// As the library says it.
    said: u8,
    generation: u8,
    index: u32,
    contact: u64,
    /// At the end of an inventory, for how many rows the tombstones were searched; at most 512.
    searched: u16,
    replies: Vec<[u8; 40]>,
    actions: Vec<[u8; 15]>,
    /// The ciphertexts of the replies, the blobs of the puts, then what the call wrote or read.
    bytes: Vec<u8>,
}

/// Kind, the length of the ciphertext, and a body of 37 bytes as the library has it.
fn reply_row(reply: &Reply) -> [u8; 40] {
    let mut row = [0; 40];
    let tag = match reply {
        Reply::Fetch(tag) => tag,
        Reply::Envelope(envelope) => {
            row[0] = 1;
            row[1..3].copy_from_slice(&(envelope.ciphertext.len() as u16).to_be_bytes());
            row[19..35].copy_from_slice(&envelope.commitment);
            row[35..39].copy_from_slice(&envelope.expiry.to_be_bytes());
            row[39] = envelope.copies;
            &envelope.tag
        }
        Reply::Custody(tag, code) => {
            (row[0], row[19]) = (2, code.code());
            tag
        }
        Reply::Tomb(tag, secret) => {
            row[0] = 3;
            row[19..35].copy_from_slice(secret);
            tag
        }
    };
    row[3..19].copy_from_slice(tag);
    row
}

/// The library's 13 bytes, and the length of the blob of a row that was put.
fn action_row(action: &Action, blob: usize) -> [u8; 15] {
    let (kind, number, message) = match *action {
        Action::Put { slot } => (0, slot, 0),
        Action::Delete { slot } => (1, slot, 0),
        Action::OwnPut { contact, message } => (2, contact, message),
    };
    let mut row = [0; 15];
    row[0] = kind;
    row[1..9].copy_from_slice(&number.to_be_bytes());
    row[9..13].copy_from_slice(&message.to_be_bytes());
    row[13..].copy_from_slice(&(blob as u16).to_be_bytes());
    row
}

/// The blob of a row that was put, as the source writes it.
fn put_blob(action: &Action, seen: &Seen) -> Vec<u8> {
    let Action::Put { slot } = action else {
        return Vec::new();
    };
    let row = seen.after.held.iter().find(|row| row.slot == *slot);
    row.map_or(Vec::new(), |row| reference::raw::blob(&row.held))
}

fn listed(seen: &Seen, replies: &[Reply], actions: &[Action]) -> Expected {
    let mut expected = Expected::default();
    for reply in replies {
        expected.replies.push(reply_row(reply));
        if let Reply::Envelope(envelope) = reply {
            expected.bytes.extend_from_slice(&envelope.ciphertext);
        }
    }
    for action in actions {
        let blob = put_blob(action, seen);
        expected.actions.push(action_row(action, blob.len()));
        expected.bytes.extend(blob);
    }
    expected
}

fn wrote(bytes: Vec<u8>) -> Expected {
    Expected {
        bytes,
        ..Expected::default()
    }
}

fn only(said: u8) -> Expected {
    Expected {
        said,
        ..Expected::default()
    }
}

fn own_row(row: &post::OwnRow) -> Vec<u8> {
    let mut bytes = Vec::new();
    bytes.extend(row.contact.to_be_bytes());
    bytes.extend(row.message.to_be_bytes());
    bytes.extend(row.tag);
    bytes.extend(row.secret);
    bytes.extend(row.expiry.to_be_bytes());
    bytes.extend([row.copies, u8::from(row.renewed)]);
    bytes.extend((row.ciphertext.len() as u16).to_be_bytes());
    bytes.extend_from_slice(&row.ciphertext);
    bytes
}

/// Kind, depositor, tag, commitment or secret, expiry, copies, ciphertext.
fn read_row(held: &Held) -> Vec<u8> {
    let none = Envelope {
        tag: [0; 16],
        commitment: [0; 16],
        expiry: 0,
        copies: 0,
        ciphertext: Vec::new().into(),
    };
    let (kind, depositor, row) = match held {
        Held::Carried { depositor, envelope } => (1, *depositor, envelope.clone()),
        Held::Tombstone { tag, secret, expiry } => {
            let row = Envelope {
                tag: *tag,
                commitment: *secret,
                expiry: *expiry,
                ..none
            };
            (2, 0, row)
        }
    };
    let mut bytes = vec![kind];
    bytes.extend(depositor.to_be_bytes());
    bytes.extend(row.tag);
    bytes.extend(row.commitment);
    bytes.extend(row.expiry.to_be_bytes());
    bytes.push(row.copies);
    bytes.extend_from_slice(&row.ciphertext);
    bytes
}

/// Malformed; missing where a fetch finds nothing; else done.
fn done(seen: &Seen, malformed: bool, replies: &[Reply]) -> u8 {
    if malformed {
        said::MALFORMED
    } else if seen.call.kind() == Kind::Fetch && replies.is_empty() {
        said::MISSING
    } else {
        said::DONE
    }
}

/// Direction, generation, index.
fn key_rows(keys: &[(Dir, u8, u32)]) -> Vec<u8> {
    let row = |(dir, generation, index): &(Dir, u8, u32)| {
        let [a, b, c, d] = index.to_be_bytes();
        [dir.label(), *generation, a, b, c, d]
    };
    keys.iter().flat_map(row).collect()
}

fn expected(seen: &Seen) -> Expected {
    match seen.answer {
        Answer::Refused(number) => only(*number),
        Answer::Done {
            malformed,
            replies,
            actions,
            searched,
        } => Expected {
            said: done(seen, *malformed, replies),
            searched: *searched as u16,
            ..listed(seen, replies, actions)
        },
        Answer::Ours {
            contact,
            generation,
            index,
        } => Expected {
            contact: *contact,
            generation: *generation,
            index: *index,
            ..only(said::OURS)
        },
        Answer::NoEnvelope => only(said::NO_ENVELOPE),
        Answer::Own(row) => wrote(own_row(row)),
        Answer::Listed(prefixes) => wrote(prefixes.concat()),
        Answer::Window(keys) => wrote(key_rows(keys)),
        Answer::Blob(None) | Answer::Row(None) => only(said::MISSING),
        Answer::Blob(Some(bytes)) | Answer::Saved(bytes) => wrote(bytes.to_vec()),
        Answer::Row(Some(held)) => wrote(read_row(held)),
        Answer::Page(page) => wrote(page.0.clone()),
    }
}

fn write_inputs(call: &Call, inputs: &Inputs, out: &mut Vec<u8>) {
    let kind = Kind::ALL.iter().position(|kind| *kind == call.kind()).expect("a kind");
    out.extend([
        b'C',
        kind as u8,
        inputs.exchange,
        inputs.small,
        inputs.copies,
        inputs.generation,
    ]);
    out.extend(inputs.lifetime.to_be_bytes());
    out.extend(inputs.number.to_be_bytes());
    for number in [inputs.expiry, inputs.index, inputs.message] {
        out.extend(number.to_be_bytes());
    }
    out.extend(inputs.tag);
    out.extend(inputs.second);
    let lent = call.areas().copied().map_or([0; 5], |areas: Areas| {
        [areas.replies, areas.prefixes, areas.offers, areas.actions, areas.answer]
    });
    for length in lent.into_iter().chain([inputs.front.len(), inputs.rest.len()]) {
        out.extend((length as u32).to_be_bytes());
    }
}

fn write_call(seen: &Seen, out: &mut Vec<u8>) {
    let (inputs, expected) = (inputs(seen.call), expected(seen));
    write_inputs(seen.call, &inputs, out);
    out.extend([expected.said, expected.generation]);
    out.extend(expected.index.to_be_bytes());
    out.extend(expected.contact.to_be_bytes());
    out.extend((expected.replies.len() as u16).to_be_bytes());
    out.extend((expected.actions.len() as u16).to_be_bytes());
    out.extend((expected.bytes.len() as u32).to_be_bytes());
    out.extend(expected.searched.to_be_bytes());
    out.extend(inputs.front);
    out.extend(inputs.rest);
    out.extend(expected.replies.concat());
    out.extend(expected.actions.concat());
    out.extend(expected.bytes);
}

fn write_list(sizes: &Sizes, calls: usize, out: &mut Vec<u8>) {
    out.push(b'L');
    for number in [
        sizes.carried_cells,
        sizes.own_cells,
        sizes.tombstone_rows,
        sizes.bad_rows,
        calls,
    ] {
        out.extend((number as u16).to_be_bytes());
    }
}

/// Pages by how much they have.
const PAGES: [&str; 4] = [
    "page refused",
    "page of a heading",
    "page of some rows",
    "page of 19 rows",
];

fn page_of(expected: &Expected) -> &'static str {
    match expected.bytes.len() / 81 {
        0 => PAGES[0],
        1 => PAGES[1],
        20 => PAGES[3],
        _ => PAGES[2],
    }
}

/// The corners of requests Two to Five, which the sample must have.
fn corners() -> impl Iterator<Item = &'static Corner> {
    LOST_FETCHES.iter().chain(COUNTS).chain(TURNS).chain(READ_BACK)
}

/// What the sample must have: every call, number, answer, custody code, reply and action, and the corners.
fn reached(seen: &Seen, found: &mut BTreeSet<String>) {
    found.insert(format!("{:?}", seen.call.kind()));
    if let Call::CustodyCode { code, .. } = seen.call {
        found.insert(format!("code {} received", code.code()));
    }
    let expected = expected(seen);
    found.insert(format!("said {}", expected.said));
    for row in &expected.replies {
        found.insert(format!("reply {}", row[0]));
        if row[0] == 2 {
            found.insert(format!("code {} answered", row[19]));
        }
    }
    for row in &expected.actions {
        found.insert(format!("action {}", row[0]));
    }
    if seen.call.kind() == Kind::Page {
        found.insert(page_of(&expected).into());
    }
    let met = corners().filter(|(_, met)| met(seen));
    found.extend(met.map(|(name, _)| name.to_string()));
}

fn wanted() -> impl Iterator<Item = String> {
    let kinds = Kind::ALL.into_iter().map(|kind| format!("{kind:?}"));
    let codes = (0..5).flat_map(|code| ["received", "answered"].map(|way| format!("code {code} {way}")));
    let replies = (0..4).map(|kind| format!("reply {kind}"));
    let actions = (0..3).map(|kind| format!("action {kind}"));
    let numbers = [
        said::DONE,
        said::MALFORMED,
        said::OURS,
        said::MISSING,
        said::NO_ENVELOPE,
    ];
    let numbers = (1..=said::LAST_REFUSAL).chain(numbers);
    let said = numbers.map(|number| format!("said {number}"));
    let pages = PAGES.map(String::from).into_iter();
    let corners = corners().map(|(name, _)| name.to_string());
    kinds
        .chain(codes)
        .chain(replies)
        .chain(actions)
        .chain(said)
        .chain(pages)
        .chain(corners)
}

/// The generator's next call. Where the list has its long calls already, it is drawn again until it is short.
fn next_call(generator: &mut Generator, state: &State, long: &mut usize) -> Call {
    loop {
        let call = generator.next(state);
        let inputs = inputs(&call);
        if inputs.front.len() + inputs.rest.len() <= SHORT {
            return call;
        }
        if *long < LONG_CALLS {
            *long += 1;
            return call;
        }
    }
}

/// One list: the generator's calls, and a save as the last.
fn list(seed: u64, calls: usize, found: &mut BTreeSet<String>) -> Result<Vec<u8>, String> {
    let mut generator = Generator::new(seed, Profile::of_seed(seed));
    let sizes = generator.sizes;
    if sizes.tombstone_rows > MOST_TOMBSTONE_ROWS {
        return Err(format!(
            "seed {seed}: R is {}, more than {MOST_TOMBSTONE_ROWS}",
            sizes.tombstone_rows
        ));
    }
    let make = maker("rules").ok_or("no second statement")?;
    let mut pair = Pair::new(sizes, make(sizes));
    let mut out = Vec::new();
    write_list(&sizes, calls, &mut out);
    let mut long = 0;
    for place in 1..=calls {
        let call = if place == calls {
            Call::Save {
                areas: Areas::enough(&sizes),
            }
        } else {
            next_call(&mut generator, pair.state(), &mut long)
        };
        let mut seen = |seen: &Seen| {
            write_call(seen, &mut out);
            reached(seen, found);
        };
        pair.step(&call, &mut seen)
            .map_err(|what| format!("seed {seed}, call {place}: {what}"))?;
    }
    pair.finish().map_err(|what| format!("seed {seed}: {what}"))?;
    Ok(out)
}

fn sample(seeds: &[u64], calls: usize) -> Result<Vec<u8>, String> {
    let mut found = BTreeSet::new();
    let mut out = b"SAMPLE 3".to_vec();
    for seed in seeds {
        out.extend(list(*seed, calls, &mut found)?);
    }
    out.push(b'E');
    out.extend((seeds.len() as u16).to_be_bytes());
    out.extend(((seeds.len() * calls) as u32).to_be_bytes());
    let missing: Vec<String> = wanted().filter(|name| !found.contains(name)).collect();
    if !missing.is_empty() {
        return Err(format!("not in the sample: {}", missing.join("; ")));
    }
    if out.len() > LONGEST {
        return Err(format!("{} bytes, more than {LONGEST}", out.len()));
    }
    Ok(out)
}

/// `FROM..TO`, both included, or seeds with commas between them.
fn seeds(text: &str) -> Option<Vec<u64>> {
    if let Some((from, to)) = text.split_once("..") {
        return Some((from.parse().ok()?..=to.parse().ok()?).collect());
    }
    text.split(',').map(|seed| seed.parse().ok()).collect()
}

pub fn main(arguments: &[String]) -> Option<ExitCode> {
    let [lists, calls] = arguments else {
        return None;
    };
    let (lists, calls) = (
        seeds(lists)?,
        calls.parse().ok().filter(|calls| (1..65_536).contains(calls))?,
    );
    pair::quiet();
    Some(match sample(&lists, calls) {
        Ok(bytes) => crate::status(std::io::stdout().write_all(&bytes).is_ok()),
        Err(what) => {
            eprintln!("sample: {what}");
            ExitCode::FAILURE
        }
    })
}

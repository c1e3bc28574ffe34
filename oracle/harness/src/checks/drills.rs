//! The drill program: the worked example, 13 in all its cases, and random logs.

use super::{Check, Outcome, holds, same};
use crate::drill::{Judged, Stopped, judged, run};
use crate::generate::logs::{log, record};
use post::Sizes;
use reference::Reference;
use rules::Rules;
use std::collections::BTreeSet;

fn peer(id: u64) -> Vec<u8> {
    id.to_be_bytes().to_vec()
}

fn contact(id: u64, verification: u8) -> Vec<u8> {
    record(b"PT", &[peer(id), vec![verification]].concat())
}

fn clock(seconds: u64) -> Vec<u8> {
    record(b"CK", &seconds.to_be_bytes())
}

fn envelope(id: u64, tag: u8, expiry: u32, copies: u8) -> Vec<u8> {
    let head = [
        vec![tag; 16],
        vec![0x22; 16],
        expiry.to_be_bytes().to_vec(),
        vec![copies],
    ]
    .concat();
    record(b"EN", &[peer(id), head, vec![0; 48]].concat())
}

fn printed(records: &[Vec<u8>]) -> String {
    judged(&records.concat()).lines
}

fn lines(records: &[Vec<u8>], want: &[&str]) -> Outcome {
    same(printed(records).lines().collect(), want.to_vec())
}

fn hex(byte: u8) -> String {
    format!("{byte:02x}").repeat(16)
}

fn worked_example() -> Outcome {
    let sent = envelope(5, 0x11, 100, 9);
    let records = [contact(5, 1), record(b"SS", &peer(5)), clock(600), sent.clone(), sent];
    let want = "ok\nok\nok\nput 0 94\ncustody 11111111111111111111111111111111 0\nok\n\
                custody 11111111111111111111111111111111 2\nok\n";
    same(printed(&records), want.to_string())
}

/// A deposit, its offer, a code, a tomb with a wrong and with the right secret, the tomb passed on, its end.
fn whole_life() -> Vec<Vec<u8>> {
    let secret = [0x33; 16];
    let head = [
        vec![0x44; 16],
        reference::raw::commitment(&secret).to_vec(),
        vec![0, 0, 0, 99, 5],
    ];
    let tomb = |secret: [u8; 16]| record(b"TB", &[peer(5), vec![0x44; 16], secret.to_vec()].concat());
    vec![
        contact(5, 0),
        record(b"SS", &peer(5)),
        record(b"EN", &[peer(5), head.concat(), vec![0; 2064]].concat()),
        record(b"IV", &peer(5)),
        record(b"IV", &peer(5)),
        record(b"FE", &[peer(5), vec![0x44; 16]].concat()),
        record(b"CU", &[peer(5), vec![0x44; 16], vec![0]].concat()),
        tomb([0x34; 16]),
        tomb(secret),
        record(b"SS", &peer(5)),
        record(b"IV", &[peer(5), vec![0x44; 8]].concat()),
        record(b"IV", &peer(5)),
        clock(99 * 60),
        record(b"MT", &[]),
    ]
}

fn every_line() -> Outcome {
    let want = "ok\nok\nput 0 2110\ncustody TAG 0\nok\nenvelope TAG 99 2\nok\nmalformed\n\
                envelope TAG 99 5\nok\nput 0 2110\nok\nmalformed\nput 0 37\nok\nok\nok\n\
                tomb TAG\nok\nok\ndel 0\nok\n";
    same(printed(&whole_life()), want.replace("TAG", &hex(0x44)))
}

/// An unknown peer's `SS` is 2, and the exchange that was open stays.
fn unknown_session() -> Outcome {
    let records = [
        contact(5, 1),
        record(b"SS", &peer(5)),
        record(b"SS", &peer(6)),
        record(b"IV", &peer(5)),
        contact(6, 1),
        record(b"IV", &peer(6)),
        record(b"SS", &peer(6)),
        record(b"IV", &peer(5)),
        record(b"IV", &peer(6)),
    ];
    lines(
        &records,
        &[
            "ok",
            "ok",
            "refused 2",
            "ok",
            "ok",
            "refused 3",
            "ok",
            "refused 3",
            "ok",
        ],
    )
}

fn sixteen_cells() -> Outcome {
    let mut records = vec![contact(5, 1), contact(6, 1), clock(600)];
    records.extend((0..17).map(|tag| envelope(5, tag, 100, 1)));
    let out = printed(&records);
    holds(
        out.ends_with(&format!("custody {} 0\nok\nrefused 4\n", hex(15))),
        "the 17th has no cell",
    )
}

fn start() -> Outcome {
    let records = [
        contact(5, 1),
        envelope(5, 1, 1, 1),
        envelope(5, 2, 5000, 9),
        record(b"MT", &[]),
    ];
    let tags = [hex(1), hex(2)];
    let first = format!("custody {} 0", tags[0]);
    let second = format!("custody {} 0", tags[1]);
    lines(
        &records,
        &["ok", "put 0 94", &first, "ok", "put 1 94", &second, "ok", "ok"],
    )?;
    let records = [clock(1440 * 60), contact(5, 1), envelope(5, 1, 1440, 1)];
    lines(&records, &["ok", "ok", &format!("custody {} 4", tags[0]), "ok"])
}

/// Stops with 13 for this reason, and prints nothing after it.
fn stops_with(records: &[Vec<u8>], why: Stopped) -> Outcome {
    let follows = contact(9, 1);
    let whole = why != Stopped::EndInside;
    let log = [records.concat(), if whole { follows } else { Vec::new() }].concat();
    let Judged {
        lines: out, stopped, ..
    } = judged(&log);
    same(stopped, Some(why))?;
    holds(
        out.ends_with("refused 13\n") && out.matches("refused 13").count() == 1,
        "one line, the last",
    )
}

fn thirteen() -> Outcome {
    let ok = contact(5, 1);
    stops_with(&[ok.clone(), record(b"XX", &[])], Stopped::Mark)?;
    stops_with(&[ok.clone(), record(b"EN", &vec![0; 8_193])], Stopped::TooLong)?;
    stops_with(&[record(b"CU", &[&[0; 24][..], &[5]].concat())], Stopped::Byte)?;
    stops_with(&[contact(5, 3)], Stopped::Byte)?;
    stops_with(&[record(b"CF", &[2, 6, 5, 160])], Stopped::Byte)?;
    stops_with(&[record(b"CF", &[2, 0, 0, 0])], Stopped::Byte)?;
    stops_with(&[record(b"IV", &[0; 15])], Stopped::Shape)?;
    let many: Vec<Vec<u8>> = (0..257).map(|id| contact(id, 1)).collect();
    stops_with(&many, Stopped::Contact)?;
    same(printed(&many[..256]).lines().filter(|line| *line == "ok").count(), 256)
}

/// A length over 8,192 is seen before the body: there need be no body.
fn length_before_body() -> Outcome {
    stops_with(&[vec![b'E', b'N', 0x20, 0x01]], Stopped::TooLong)?;
    let longest = record(b"EN", &[peer(5), vec![0; 8_184]].concat());
    lines(
        &[contact(5, 1), longest],
        &["ok", &format!("custody {} 4", hex(0)), "ok"],
    )
}

fn end_of_input() -> Outcome {
    let whole = contact(5, 1);
    lines(&[], &[])?;
    for cut in 1..whole.len() {
        stops_with(&[whole[..cut].to_vec()], Stopped::EndInside)?;
    }
    Ok(())
}

/// An envelope that expires at this minute, and its tomb.
fn deposit_and_tomb(number: u32, expiry: u32) -> [Vec<u8>; 2] {
    let secret = [0x33; 16];
    let tag = [&number.to_be_bytes()[..], &[0x44; 12]].concat();
    let head = [
        &tag[..],
        &reference::raw::commitment(&secret),
        &expiry.to_be_bytes(),
        &[5],
    ]
    .concat();
    [
        record(b"EN", &[peer(5), head, vec![0; 48]].concat()),
        record(b"TB", &[peer(5), tag, secret.to_vec()].concat()),
    ]
}

/// 1,024 rows turn, that of slot 500 with the least expiry; then another turns, and one more. A wrong secret and an unknown tag take nothing.
fn at_the_limit() -> Outcome {
    let expiry = |number| if number == 500 { 98 } else { 100 };
    let mut records = vec![contact(5, 1)];
    records.extend((0..1024).flat_map(|number| deposit_and_tomb(number, expiry(number))));
    let before = records.len();
    let [deposit, tomb] = deposit_and_tomb(1024, 99);
    let [_, unknown] = deposit_and_tomb(9999, 99);
    let mut wrong = tomb.clone();
    *wrong.last_mut().expect("a secret") ^= 1;
    let last = deposit_and_tomb(1025, 97);
    records.extend([deposit, wrong, unknown, tomb]);
    records.extend(last);
    let Judged {
        lines,
        records: all,
        of_the_source,
        ..
    } = judged(&records.concat());
    let lines: Vec<&str> = lines
        .lines()
        .skip(1 + 1024 * 5)
        .filter(|line| !line.starts_with("custody"))
        .collect();
    let want = "put 1024 94|ok|malformed|ok|del 500|put 1024 37|ok|put 1025 94|ok|del 1024|put 1025 37|ok";
    same(lines.join("|"), want.to_string())?;
    same((all, of_the_source), (before + 6, before + 3))?;
    // The source under document 01's refusals, as the drill was before request Four.
    let (old, _) = run(Reference::new(Sizes::DRILL), &records.concat());
    let old: Vec<&str> = old
        .lines()
        .skip(1 + 1024 * 5)
        .filter(|line| !line.starts_with("custody"))
        .collect();
    same(
        old.join("|"),
        "put 1024 94|ok|malformed|ok|refused 5|put 1025 94|ok|refused 5".to_string(),
    )
}

/// The judge and the second statement print the same for random logs, which stop for every reason; those without 13 do not stop.
fn random_logs() -> Outcome {
    let mut reasons = BTreeSet::new();
    for seed in 1..=200 {
        let records = 60 + (seed as usize % 5) * 60;
        let made = log(seed, records, true);
        let Judged { lines, stopped, .. } = judged(&made.log);
        let (other, _) = run(Rules::new(Sizes::DRILL), &made.log);
        holds(lines == other, &format!("log {seed} differs"))?;
        same(stopped, made.stopped)?;
        reasons.extend(stopped);
        let whole = log(seed, records, false);
        let (_, stopped) = run(Rules::new(Sizes::DRILL), &whole.log);
        same((whole.records, stopped), (records, None))?;
    }
    same(reasons.into_iter().collect(), Stopped::ALL.to_vec())
}

/// Logs around 1,024 tombstones: some leave the comparison with the source, and no line is `refused 5`.
fn random_logs_at_the_limit() -> Outcome {
    let mut left = 0;
    for seed in [3, 8, 13, 18] {
        let made = log(seed, 2_600, false);
        let judged = judged(&made.log);
        let (other, _) = run(Rules::new(Sizes::DRILL), &made.log);
        holds(judged.lines == other, &format!("log {seed} differs"))?;
        holds(!other.contains("refused 5"), &format!("log {seed} has a refusal by 5"))?;
        left += usize::from(judged.of_the_source < judged.records);
    }
    holds(left >= 2, "two of the logs leave the comparison with the source")
}

pub const CHECKS: &[Check] = &[
    ("the worked example, byte for byte", worked_example),
    ("every kind of line", every_line),
    ("SS of an unknown peer", unknown_session),
    ("16 cells", sixteen_cells),
    ("the clock and the setting at the start", start),
    ("a row turns at 1,024: del, put, ok, where refused 5 was", at_the_limit),
    ("13: mark, length, shape, bytes, a 257th contact", thirteen),
    ("13: the length is tested before the body", length_before_body),
    (
        "13: the end of input inside a record; between two, no line",
        end_of_input,
    ),
    ("200 random logs, and 13 for every reason", random_logs),
    ("random logs around 1,024 tombstones", random_logs_at_the_limit),
];

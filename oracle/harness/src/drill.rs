//! The drill program of document 01 over any post: a log in, lines out.

use crate::compare::judge::Judge;
use post::{Action, Answer, Areas, Call, Custody, Envelope, Post, Reply, Sizes, Verification, array};
use std::fmt::Write;

const LONGEST_BODY: usize = 8_192;

/// Why a record meets 13. The program says no more than the number.
#[derive(Debug, Clone, Copy, PartialEq, Eq, PartialOrd, Ord)]
pub enum Stopped {
    Mark,
    TooLong,
    Shape,
    Byte,
    Contact,
    EndInside,
}

impl Stopped {
    pub const ALL: [Self; 6] = [
        Self::Mark,
        Self::TooLong,
        Self::Shape,
        Self::Byte,
        Self::Contact,
        Self::EndInside,
    ];
}

impl std::fmt::Display for Stopped {
    fn fmt(&self, f: &mut std::fmt::Formatter<'_>) -> std::fmt::Result {
        f.write_str(match self {
            Self::Mark => "unknown mark",
            Self::TooLong => "body over 8192 bytes",
            Self::Shape => "body of wrong shape",
            Self::Byte => "code, verification or enabled",
            Self::Contact => "a 257th contact",
            Self::EndInside => "end of input inside it",
        })
    }
}

/// A mark and a body.
type Record<'a> = ([u8; 2], &'a [u8]);

/// The next record, and what follows it. The length is tested before the body is looked at.
fn split(log: &[u8]) -> Result<(Record<'_>, &[u8]), Stopped> {
    if log.len() < 4 {
        return Err(Stopped::EndInside);
    }
    let mark = array(log, 0);
    let length = usize::from(u16::from_be_bytes(array(log, 2)));
    if length > LONGEST_BODY {
        return Err(Stopped::TooLong);
    }
    if !MARKS.contains(&&mark) {
        return Err(Stopped::Mark);
    }
    let (body, rest) = log[4..].split_at_checked(length).ok_or(Stopped::EndInside)?;
    Ok(((mark, body), rest))
}

const MARKS: [&[u8; 2]; 10] = [b"CK", b"PT", b"SS", b"EN", b"IV", b"FE", b"CU", b"TB", b"MT", b"CF"];

fn fits(mark: &[u8; 2], length: usize) -> bool {
    match mark {
        b"CK" | b"SS" => length == 8,
        b"PT" => length == 9,
        b"EN" => length >= 8 + 37,
        b"IV" => length >= 8 && length.is_multiple_of(8),
        b"FE" => length == 24,
        b"CU" => length == 25,
        b"TB" => length == 40,
        b"MT" => length == 0,
        _ => length == 4,
    }
}

fn verification(byte: u8) -> Result<Verification, Stopped> {
    match byte {
        0 => Ok(Verification::Unverified),
        1 => Ok(Verification::Verified),
        2 => Ok(Verification::Compromised),
        _ => Err(Stopped::Byte),
    }
}

fn envelope(body: &[u8]) -> Envelope {
    Envelope {
        tag: array(body, 8),
        commitment: array(body, 24),
        expiry: u32::from_be_bytes(array(body, 40)),
        copies: body[44],
        ciphertext: body[45..].into(),
    }
}

/// The calls of a host's records.
fn host_call(mark: &[u8; 2], body: &[u8]) -> Result<Call, Stopped> {
    Ok(match mark {
        b"CK" => Call::Clock {
            seconds: u64::from_be_bytes(array(body, 0)),
        },
        b"PT" => Call::Contact {
            id: u64::from_be_bytes(array(body, 0)),
            verification: verification(body[8])?,
        },
        b"MT" => Call::Maintenance {
            areas: Areas::enough(&Sizes::DRILL),
        },
        _ => Call::Setting {
            enabled: match body[0] {
                0 => false,
                1 => true,
                _ => return Err(Stopped::Byte),
            },
            copies: body[1],
            lifetime: u16::from_be_bytes(array(body, 2)),
        },
    })
}

fn call_of(mark: &[u8; 2], body: &[u8]) -> Result<Call, Stopped> {
    if !fits(mark, body.len()) {
        return Err(Stopped::Shape);
    }
    if matches!(mark, b"CK" | b"PT" | b"MT" | b"CF") {
        return host_call(mark, body);
    }
    let areas = Areas::enough(&Sizes::DRILL);
    let peer = u64::from_be_bytes(array(body, 0));
    let (exchange, window) = (0, Vec::new().into());
    let tag = || array(body, 8);
    Ok(match mark {
        b"SS" => Call::FreshExchange { areas, exchange, peer },
        b"EN" => Call::Envelope {
            areas,
            window,
            peer,
            envelope: envelope(body),
        },
        b"IV" => Call::Inventory {
            areas,
            window,
            exchange,
            peer,
            prefixes: body[8..].into(),
        },
        b"FE" => Call::Fetch {
            areas,
            peer,
            tag: tag(),
        },
        b"CU" => Call::CustodyCode {
            areas,
            exchange,
            peer,
            tag: tag(),
            code: Custody::of(body[24]).ok_or(Stopped::Byte)?,
        },
        _ => Call::Tomb {
            areas,
            peer,
            tag: tag(),
            secret: array(body, 24),
        },
    })
}

pub struct Drill<P> {
    pub post: P,
    pub output: String,
    pub stopped: Option<Stopped>,
}

impl<P: Post> Drill<P> {
    pub fn new(post: P) -> Self {
        Self {
            post,
            output: String::new(),
            stopped: None,
        }
    }

    fn line(&mut self, line: std::fmt::Arguments<'_>) {
        writeln!(self.output, "{line}").expect("a string takes every line");
    }

    fn action(&mut self, action: &Action) {
        match action {
            Action::Put { slot } => {
                let areas = Areas::enough(&Sizes::DRILL);
                let Answer::Blob(Some(blob)) = self.post.perform(&Call::RowBlob { areas, slot: *slot }) else {
                    panic!("slot {slot} was put and has no row");
                };
                self.line(format_args!("put {slot} {}", blob.len()));
            }
            Action::Delete { slot } => self.line(format_args!("del {slot}")),
            Action::OwnPut { .. } => unreachable!("a drill has no own rows"),
        }
    }

    fn reply(&mut self, reply: &Reply) {
        match reply {
            Reply::Custody(tag, code) => self.line(format_args!("custody {} {}", hashes::hex(tag), code.code())),
            Reply::Tomb(tag, _) => self.line(format_args!("tomb {}", hashes::hex(tag))),
            Reply::Envelope(envelope) => self.line(format_args!(
                "envelope {} {} {}",
                hashes::hex(&envelope.tag),
                envelope.expiry,
                envelope.copies
            )),
            Reply::Fetch(_) => unreachable!("a drill has no window"),
        }
    }

    fn stop(&mut self, why: Stopped) {
        self.stopped = Some(why);
        self.line(format_args!("refused 13"));
    }

    fn answer(&mut self, answer: &Answer) {
        match answer {
            Answer::Refused(13) => self.stop(Stopped::Contact),
            Answer::Refused(number) => self.line(format_args!("refused {number}")),
            // Document 01's lines have no place for request Three's count.
            Answer::Done {
                malformed,
                replies,
                actions,
                searched: _,
            } => {
                actions.iter().for_each(|action| self.action(action));
                replies.iter().for_each(|reply| self.reply(reply));
                self.line(format_args!("{}", if *malformed { "malformed" } else { "ok" }));
            }
            other => unreachable!("no record is answered {other:?}"),
        }
    }

    /// One record; what follows it, or nothing once the program has stopped.
    pub fn record<'a>(&mut self, log: &'a [u8]) -> &'a [u8] {
        let read = split(log).and_then(|((mark, body), rest)| Ok((call_of(&mark, body)?, rest)));
        match read {
            Err(why) => {
                self.stop(why);
                &[]
            }
            Ok((call, rest)) => {
                let answer = self.post.perform(&call);
                self.answer(&answer);
                if self.stopped.is_some() { &[] } else { rest }
            }
        }
    }

    pub fn feed(&mut self, mut log: &[u8]) {
        while !log.is_empty() && self.stopped.is_none() {
            log = self.record(log);
        }
    }
}

/// What the drill program must print for a log; how many records it went through, and how many of them before the log left the comparison with
/// the source.
pub struct Judged {
    pub lines: String,
    pub stopped: Option<Stopped>,
    pub records: usize,
    pub of_the_source: usize,
}

pub fn judged(mut log: &[u8]) -> Judged {
    let mut drill = Drill::new(Judge::new(Sizes::DRILL));
    let (mut records, mut of_the_source) = (0, 0);
    while !log.is_empty() && drill.stopped.is_none() {
        log = drill.record(log);
        records += 1;
        of_the_source += usize::from(!drill.post.has_left());
    }
    Judged {
        lines: drill.output,
        stopped: drill.stopped,
        records,
        of_the_source,
    }
}

/// All that the program prints for a log, and why it stopped, if it did.
pub fn run(post: impl Post, log: &[u8]) -> (String, Option<Stopped>) {
    let mut drill = Drill::new(post);
    drill.feed(log);
    (drill.output, drill.stopped)
}

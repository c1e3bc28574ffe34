//! The drill logs of the repository's samples, played through this interface: it prints what is stored beside them.

use super::*;
use std::{fmt::Write, fs, mem, path::PathBuf};

/// What a record of a log asks for.
enum Step<'a> {
    Clock(u64),
    Contact(ContactId, Verification),
    Setting(Setting),
    Exchange(ContactId),
    Envelope(ContactId, Envelope<'a>),
    Inventory(ContactId, &'a [Prefix]),
    Fetch(ContactId, Tag),
    Code(ContactId, Tag, Custody),
    Tomb(ContactId, Tag, Secret),
    Maintenance,
}

/// What is left of a record's body.
struct Body<'a>(&'a [u8]);

impl<'a> Body<'a> {
    fn take<const N: usize>(&mut self) -> Option<[u8; N]> {
        let (field, rest) = self.0.split_first_chunk()?;
        self.0 = rest;
        Some(*field)
    }

    fn u8(&mut self) -> Option<u8> {
        self.take().map(u8::from_be_bytes)
    }

    fn peer(&mut self) -> Option<ContactId> {
        Some(ContactId(u64::from_be_bytes(self.take()?)))
    }

    fn tag(&mut self) -> Option<Tag> {
        self.take().map(Tag)
    }

    fn verification(&mut self) -> Option<Verification> {
        Some(match self.u8()? {
            0 => Verification::Unverified,
            1 => Verification::Verified,
            2 => Verification::Compromised,
            _ => return None,
        })
    }

    fn setting(&mut self) -> Option<Setting> {
        Some(Setting {
            enabled: match self.u8()? {
                0 => false,
                1 => true,
                _ => return None,
            },
            copies: self.u8()?,
            lifetime_min: u16::from_be_bytes(self.take()?),
        })
    }

    fn envelope(&mut self) -> Option<Envelope<'a>> {
        let header = Header {
            tag: self.tag()?,
            commitment: Commitment(self.take()?),
            expiry_min: u32::from_be_bytes(self.take()?),
            copies: self.u8()?,
        };
        let ciphertext = mem::take(&mut self.0);
        Some(Envelope { header, ciphertext })
    }

    fn prefixes(&mut self) -> &'a [Prefix] {
        let (prefixes, rest) = self.0.as_chunks();
        self.0 = rest;
        prefixes
    }

    /// The step, if the body has just the fields that its mark asks for.
    fn step(mut self, mark: [u8; 2]) -> Option<Step<'a>> {
        let step = match &mark {
            b"CK" => Step::Clock(u64::from_be_bytes(self.take()?)),
            b"PT" => Step::Contact(self.peer()?, self.verification()?),
            b"CF" => Step::Setting(self.setting()?),
            b"SS" => Step::Exchange(self.peer()?),
            b"EN" => Step::Envelope(self.peer()?, self.envelope()?),
            b"IV" => Step::Inventory(self.peer()?, self.prefixes()),
            b"FE" => Step::Fetch(self.peer()?, self.tag()?),
            b"CU" => Step::Code(self.peer()?, self.tag()?, Custody::from_code(self.u8()?)?),
            b"TB" => Step::Tomb(self.peer()?, self.tag()?, Secret(self.take()?)),
            b"MT" => Step::Maintenance,
            _ => return None,
        };
        self.0.is_empty().then_some(step)
    }
}

/// The next record of a log, and what follows it.
fn record(log: &[u8]) -> Option<(Step<'_>, &[u8])> {
    let mut rest = Body(log);
    let mark = rest.take()?;
    let length = usize::from(u16::from_be_bytes(rest.take()?));
    let (body, rest) = rest.0.split_at_checked(length)?;
    let step = Body(body).step(mark).filter(|_| length <= 8192)?;
    Some((step, rest))
}

fn action_lines(actions: Actions<'_>) -> String {
    let post = actions.post();
    let mut blob = [0; BLOB];
    actions.fold(String::new(), |mut lines, action| {
        match action {
            Action::Put(slot) => {
                let length = post.row_blob(slot, &mut blob).unwrap().len();
                writeln!(lines, "put {} {length}", slot.0).unwrap();
            }
            Action::Delete(slot) => writeln!(lines, "del {}", slot.0).unwrap(),
            other => panic!("a drill has no own rows: {other:?}"),
        }
        lines
    })
}

fn reply_line(reply: Reply<'_>) -> String {
    match reply {
        Reply::Custody { tag, code } => format!("custody {tag} {}\n", code.code()),
        Reply::Tomb { tag, .. } => format!("tomb {tag}\n"),
        Reply::Envelope(Envelope { header, .. }) => {
            format!(
                "envelope {} {} {}\n",
                header.tag, header.expiry_min, header.copies
            )
        }
        Reply::Fetch(_) => panic!("a drill awaits nothing"),
    }
}

/// The lines of what the host sets.
fn set(post: &mut Post, exchange: &mut Exchange, step: Step<'_>) -> Result<String, Refusal> {
    match step {
        Step::Clock(seconds) => post.set_clock(seconds),
        Step::Contact(contact, verification) => post.set_contact(contact, verification)?,
        Step::Setting(setting) => post.set_setting(setting)?,
        Step::Exchange(peer) => post.fresh_exchange(exchange, peer)?,
        _ => return Ok(action_lines(post.maintenance()?)),
    }
    Ok(String::new())
}

/// The lines of a step but the last, or none if what a peer sent is malformed.
fn perform(
    post: &mut Post,
    exchange: &mut Exchange,
    step: Step<'_>,
) -> Result<Option<String>, Refusal> {
    Ok(Some(match step {
        Step::Envelope(peer, envelope) => match post.envelope(peer, envelope, &Window::EMPTY)? {
            Received::Replied { code, actions, .. } => {
                let tag = envelope.header.tag;
                action_lines(actions) + &reply_line(Reply::Custody { tag, code })
            }
            ours => panic!("a drill awaits nothing: {ours:?}"),
        },
        Step::Inventory(peer, prefixes) => {
            match post.inventory(exchange, peer, &Window::EMPTY, prefixes)? {
                Record::Taken(replies) => replies.map(reply_line).collect(),
                Record::Malformed => return Ok(None),
            }
        }
        Step::Fetch(peer, tag) => {
            let envelope = post.fetch(peer, tag)?.map(Reply::Envelope);
            envelope.map_or_else(String::new, reply_line)
        }
        Step::Code(peer, tag, code) => action_lines(post.custody_code(exchange, peer, tag, code)?),
        Step::Tomb(peer, tag, secret) => match post.tomb(peer, tag, secret)? {
            Record::Taken(actions) => action_lines(actions),
            Record::Malformed => return Ok(None),
        },
        setting => set(post, exchange, setting)?,
    }))
}

/// All that a log prints. It ends at a record that is none, and at a 257th contact.
fn play(mut log: &[u8]) -> String {
    let mut post = Post::new(Sizes {
        carried_cells: 16,
        own_cells: 16,
        tombstone_rows: 1024,
        bad_tag_rows: 0,
    })
    .unwrap();
    let mut exchange = Exchange::closed();
    let mut printed = String::new();
    while !log.is_empty() {
        let said = match record(log) {
            Some((step, rest)) => {
                log = rest;
                perform(&mut post, &mut exchange, step)
            }
            None => Err(Refusal::LogRecord),
        };
        match said {
            Ok(Some(lines)) => printed += &(lines + "ok\n"),
            Ok(None) => printed += "malformed\n",
            Err(Refusal::LogRecord) => return printed + "refused 13\n",
            Err(refusal) => writeln!(printed, "refused {}", refusal.number()).unwrap(),
        }
    }
    printed
}

fn plays_as_stored(name: &str) {
    let samples = PathBuf::from(env!("CARGO_MANIFEST_DIR")).join("../../../samples");
    let log = fs::read(samples.join(name).with_extension("log")).unwrap();
    let stored = fs::read_to_string(samples.join(name).with_extension("out")).unwrap();
    assert_eq!(play(&log), stored);
}

#[test]
fn the_worked_log() {
    plays_as_stored("worked");
}

#[test]
fn the_log_of_limits() {
    plays_as_stored("limits");
}

#[test]
fn the_log_of_random_records() {
    plays_as_stored("mixed");
}

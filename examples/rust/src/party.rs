//! A device that takes part: its post, what it awaits, and its store.

use crate::sealing::{message_key, open};
use goosetable::{
    Action, Actions, BLOB, ContactId, Custody, Envelope, Exchange, HeldRow, OwnMessage, OwnRow,
    PAGE, Post, Received, Record, SavedFile, Secret, Sizes, Slot, Tag, Verification, Window,
    delivered, row_read,
};
use std::{collections::BTreeMap, error::Error};

pub type Problem = Box<dyn Error>;

pub struct Party {
    pub name: &'static str,
    pub id: ContactId,
    pub post: Post,
    pub window: Window,
    store: Store,
    known: Vec<ContactId>,
}

/// A post that knows some contacts, at minute 10.
fn started(known: &[ContactId]) -> Result<Post, Problem> {
    let mut post = Post::new(Sizes::default())?;
    for contact in known {
        post.set_contact(*contact, Verification::Verified)?;
    }
    post.set_clock(10 * 60);
    Ok(post)
}

impl Party {
    pub fn new(
        name: &'static str,
        id: ContactId,
        known: &[ContactId],
        window: Window,
    ) -> Result<Party, Problem> {
        Ok(Party {
            name,
            id,
            post: started(known)?,
            window,
            store: Store::default(),
            known: known.to_vec(),
        })
    }

    /// Makes the envelope of a queued message, and stores its row.
    pub fn send(&mut self, message: OwnMessage<'_>) -> Result<OwnRow, Problem> {
        let row = self.post.own_envelope(message)?;
        let row = row.ok_or("no envelope was made")?;
        self.store.put_own(row, &self.post)?;
        Ok(row)
    }

    /// Starts again with nothing but what is stored.
    pub fn restart(&mut self) -> Result<(), Problem> {
        println!("{} restarts", self.name);
        self.post = started(&self.known)?;
        self.store.load(&mut self.post)?;
        for row in self.post.carried() {
            let Envelope { header, ciphertext } = row.envelope;
            println!(
                "  it carries slot {} of contact {}: copies {}, {} bytes",
                row.slot,
                row.depositor,
                header.copies,
                ciphertext.len()
            );
        }
        for row in self.post.own_rows() {
            println!(
                "  it has its message {}: copies {}",
                row.message, row.copies
            );
        }
        Ok(())
    }

    /// Lets a minute come, and what has expired by then go.
    pub fn maintain(&mut self, minute: u64) -> Result<(), Problem> {
        println!("{}: maintenance in minute {minute}", self.name);
        self.post.set_clock(minute * 60);
        self.store.follow(self.name, self.post.maintenance()?)
    }

    /// What a technician sees on its screen in a minute: every page that has rows, and page 0 if none has.
    pub fn show(&mut self, minute: u64) {
        self.post.set_clock(minute * 60);
        let mut area = [0; PAGE];
        for page in 0..self.post.pages().max(1) {
            println!("{}: page {page} in minute {minute}", self.name);
            print!("{}", self.post.page(page, &mut area));
        }
    }

    /// An envelope that a peer offers: the code that answers it.
    pub fn offered(&mut self, peer: ContactId, envelope: Envelope<'_>) -> Result<Custody, Problem> {
        match self.post.envelope(peer, envelope, &self.window)? {
            Received::Ours { .. } => Err("an offered envelope was not asked for".into()),
            Received::Replied { code, actions, .. } => {
                let copies = envelope.header.copies;
                println!("  {} is offered it, copies {copies}: {code}", self.name);
                self.store.follow(self.name, actions)?;
                Ok(code)
            }
        }
    }

    /// The code with which a peer answers an offer.
    pub fn answered(
        &mut self,
        exchange: &mut Exchange,
        peer: ContactId,
        tag: Tag,
        code: Custody,
    ) -> Result<(), Problem> {
        let actions = self.post.custody_code(exchange, peer, tag, code)?;
        self.store.follow(self.name, actions)
    }

    /// An envelope that was asked for: the secret that proves its delivery.
    pub fn delivered(
        &mut self,
        peer: ContactId,
        envelope: Envelope<'_>,
    ) -> Result<Secret, Problem> {
        let header = envelope.header;
        let Received::Ours { contact, index, .. } =
            self.post.envelope(peer, envelope, &self.window)?
        else {
            return Err("an envelope that was asked for is not ours".into());
        };
        let row = self.window.row_of(header.tag);
        let key = message_key(row.ok_or("ours is in the window")?.key);
        let Some(text) = open(&key, envelope.ciphertext) else {
            self.post.failed(peer, header.tag)?;
            return Err("an envelope could not be opened".into());
        };
        println!(
            "  {}: ours, message {index} of contact {contact}: \"{text}\"",
            self.name
        );
        let secret = delivered(&key);
        let opened = self
            .post
            .opened(peer, header.tag, secret, header.expiry_min)?;
        self.store.follow(self.name, opened.actions)?;
        Ok(secret)
    }

    /// A tomb that a peer sends.
    pub fn told(&mut self, peer: ContactId, tag: Tag, secret: Secret) -> Result<(), Problem> {
        println!("  {} is told of the delivery", self.name);
        match self.post.tomb(peer, tag, secret)? {
            Record::Taken(actions) => self.store.follow(self.name, actions),
            Record::Malformed => Err("a tomb has the wrong secret".into()),
        }
    }
}

/// How an own row ended: a tomb left its tombstone, maintenance none.
fn how_it_ended(row: OwnRow, post: &Post) -> &'static str {
    match post.tombstone_of(row.tag) {
        Some(_) => "was delivered",
        None => "expired a second time, and waits for its contact alone",
    }
}

/// What is stored: the blobs of held rows by slot, and own rows with their ciphertexts.
#[derive(Default)]
struct Store {
    held: BTreeMap<Slot, Vec<u8>>,
    own: BTreeMap<(ContactId, u32), ([u8; OwnRow::SIZE], Vec<u8>)>,
}

impl Store {
    /// Carries out the actions of a call, one after the other.
    fn follow(&mut self, name: &str, actions: Actions<'_>) -> Result<(), Problem> {
        let post = actions.post();
        for action in actions.held_first() {
            match action {
                Action::Put(slot) => self.put(name, slot, post)?,
                Action::Delete(slot) => {
                    self.held.remove(&slot).ok_or("nothing to delete")?;
                    println!("  {name} deletes slot {slot}");
                }
                Action::OwnPut { contact, message } => match post.own_row(contact, message) {
                    Some(row) => {
                        println!("  {name} keeps its own, copies {}", row.copies);
                        self.put_own(row, post)?;
                    }
                    None => {
                        let (row, _) = self.own.remove(&(contact, message)).ok_or("no own row")?;
                        let ended = how_it_ended(OwnRow::from_bytes(&row), post);
                        println!("  {name}: its message {message} {ended}");
                    }
                },
                other => return Err(format!("an action of a later version: {other:?}").into()),
            }
        }
        Ok(())
    }

    fn put(&mut self, name: &str, slot: Slot, post: &Post) -> Result<(), Problem> {
        let mut area = [0; BLOB];
        let blob = post.row_blob(slot, &mut area).ok_or("no row to store")?;
        let row = match row_read(blob).ok_or("a blob that is no row")? {
            HeldRow::Carried { envelope, .. } => {
                format!("an envelope, copies {}", envelope.header.copies)
            }
            HeldRow::Tombstone { expiry_min, .. } => {
                format!("a tombstone until minute {expiry_min}")
            }
        };
        println!("  {name} stores slot {slot}: {row}, {} bytes", blob.len());
        self.held.insert(slot, blob.to_vec());
        Ok(())
    }

    fn put_own(&mut self, row: OwnRow, post: &Post) -> Result<(), Problem> {
        let key = (row.contact, row.message);
        let ciphertext = post.own_ciphertext(row.contact, row.message);
        let ciphertext = ciphertext.ok_or("no own row to store")?.to_vec();
        self.own.insert(key, (row.to_bytes(), ciphertext));
        Ok(())
    }

    /// Gives a post that knows its contacts all that is stored. A row that is damaged or refused is left out; its slot
    /// is not given again.
    fn load(&self, post: &mut Post) -> Result<(), Problem> {
        let mut file = SavedFile::new();
        for (slot, blob) in &self.held {
            if let Err(damaged) = file.push(*slot, blob) {
                println!("  slot {slot} is left out: {damaged}");
            }
        }
        for (slot, refusal) in file.load_good(post)? {
            println!("  slot {slot} is left out: {refusal}");
        }
        println!("  it loads a file of {} bytes", file.as_bytes().len());
        for (row, ciphertext) in self.own.values() {
            post.restore_own_row(OwnRow::from_bytes(row), ciphertext)?;
        }
        Ok(())
    }
}

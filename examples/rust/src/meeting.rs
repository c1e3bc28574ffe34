//! What two devices say to each other when they meet.

use crate::party::{Party, Problem};
use goosetable::{
    ContactId, Custody, Exchange, MAX_LISTED, Prefix, Record, Replies, Reply, Tag, Window,
};

/// The most prefixes that are sent in one list.
const LIST: usize = 500;

/// Each sends its inventory, and the other answers it.
pub fn meet(one: &mut Party, other: &mut Party) -> Result<(), Problem> {
    println!("{} meets {}", one.name, other.name);
    inventory(one, other)?;
    inventory(other, one)
}

/// One sends its inventory in lists, an empty one last, and the other's replies are carried out. The
/// empty list alone needs the window; to test its rows with the others takes time. It alone is answered
/// with replies, and says for how many rows the tombstones were searched.
fn inventory(sending: &mut Party, answering: &mut Party) -> Result<(), Problem> {
    let mut area = [[0; 8]; MAX_LISTED];
    let prefixes = sending.post.inventory_of_ours(answering.id, &mut area)?;
    let mut exchange = Exchange::closed();
    let nothing = Window::EMPTY;
    answering.post.fresh_exchange(&mut exchange, sending.id)?;
    for list in prefixes.chunks(LIST).chain([&[] as &[Prefix]]) {
        let post = &mut answering.post;
        let window = match list {
            [] => &answering.window,
            _ => &nothing,
        };
        let Record::Taken(replies) = post.inventory(&mut exchange, sending.id, window, list)?
        else {
            return Err("an inventory is malformed".into());
        };
        if list.is_empty() {
            println!(
                "  {} answers the inventory of {}: replies {}, searched {}",
                answering.name,
                sending.name,
                replies.len(),
                replies.searched()
            );
        }
        let back = replied(sending, answering.id, replies)?;
        for (tag, code) in back.codes {
            answering.answered(&mut exchange, sending.id, tag, code)?;
        }
        for tag in back.fetches {
            fetch(sending, answering, tag)?;
        }
    }
    Ok(())
}

/// What goes back to the one that replied: codes for its offers, and envelopes that it asked for.
#[derive(Default)]
struct Back {
    codes: Vec<(Tag, Custody)>,
    fetches: Vec<Tag>,
}

/// Replies of a peer reach the one that sent its inventory.
fn replied(to: &mut Party, peer: ContactId, replies: Replies<'_>) -> Result<Back, Problem> {
    let mut back = Back::default();
    for reply in replies {
        match reply {
            Reply::Fetch(tag) => back.fetches.push(tag),
            Reply::Envelope(envelope) => {
                let code = to.offered(peer, envelope)?;
                back.codes.push((envelope.header.tag, code));
            }
            Reply::Tomb { tag, secret } => to.told(peer, tag, secret)?,
            Reply::Custody { .. } => return Err("a code answers no inventory".into()),
        }
    }
    Ok(back)
}

/// An envelope is handed to the one that awaits it, and its tomb comes back.
fn fetch(holder: &mut Party, awaiting: &mut Party, tag: Tag) -> Result<(), Problem> {
    println!("  {} asks {} for {tag}", awaiting.name, holder.name);
    let envelope = holder.post.fetch(awaiting.id, tag)?;
    let envelope = envelope.ok_or("an envelope that was listed is gone")?;
    let secret = awaiting.delivered(holder.id, envelope)?;
    holder.told(awaiting.id, tag, secret)
}

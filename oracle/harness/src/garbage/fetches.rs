//! Fetches on areas that no call left: inventories that go after tombstoned window tags, and what an empty one met.

use crate::generate::Rng;
use crate::lost::Ending;
use lent::{Areas, Device, Tombstone, decoded, table};
use post::{Bytes, Call, Exchange, Prefix, Sizes, State, Tag, WindowRow, array, encode_window};

/// The tombstone rows that fit into their area, those behind the count too, and the count as it stands.
fn tombstones(areas: &Areas) -> (Vec<Tombstone>, usize) {
    let rows = table(&areas.tombstones, usize::MAX);
    (rows, Device::read(&areas.device).tombstones)
}

/// A tag of the tombstone area; of those behind the count half of the time, where there are any.
fn any_tag(tags: &[Tag], count: usize, rng: &mut Rng) -> Tag {
    let behind = tags.get(count..).unwrap_or_default();
    let any = rng.pick(tags);
    if rng.percent(50) { rng.pick_or(behind, any) } else { any }
}

/// An exchange that is open for a known contact and not complete.
fn open_exchange(state: &State, rng: &mut Rng) -> Option<(usize, u64)> {
    let knows = |peer: u64| state.contacts.iter().any(|contact| contact.id == peer);
    let open = |exchange: &Exchange| exchange.peer.filter(|peer| knows(*peer) && !exchange.complete);
    let places = 0..state.exchanges.len();
    let fit: Vec<(usize, u64)> = places
        .filter_map(|place| Some((place, open(&state.exchanges[place])?)))
        .collect();
    (!fit.is_empty()).then(|| rng.pick(&fit))
}

/// Two rows, with a tag that is asked for and with another.
fn window(state: &State, tags: [Tag; 2], rng: &mut Rng) -> Bytes {
    let contact = rng.pick(&state.contacts).id;
    let row = |(index, tag)| WindowRow {
        contact,
        dir: b'I',
        generation: 0,
        index,
        tag,
    };
    let rows: Vec<WindowRow> = (0..).zip(tags).map(row).collect();
    encode_window(&rows)
}

/// Goes after the tag of a tombstone row whose prefix is listed: an empty inventory with it in the window, or a report that makes it bad.
/// Where none is listed, an inventory that lists some.
pub fn call_after_one(areas: &Areas, sizes: &Sizes, rng: &mut Rng) -> Option<Call> {
    let (rows, count) = tombstones(areas);
    let tags: Vec<Tag> = rows.iter().map(|row| row.tag).collect();
    let state = decoded(areas);
    let (exchange, peer) = open_exchange(&state, rng).filter(|_| !tags.is_empty())?;
    let prefix = |tag: &Tag| -> Prefix { array(tag, 0) };
    let listed = &state.exchanges[exchange].listed;
    let wanted: Vec<Tag> = tags
        .iter()
        .filter(|tag| listed.contains(&prefix(tag)))
        .copied()
        .collect();
    let other = any_tag(&tags, count, rng);
    let (window, prefixes): (Bytes, Vec<u8>) = if wanted.is_empty() {
        let some: Vec<Tag> = (0..3).map(|_| any_tag(&tags, count, rng)).collect();
        (Vec::new().into(), some.iter().flat_map(prefix).collect())
    } else {
        let is_bad = |tag: &&Tag| state.bad.contains(&(peer, **tag));
        let bad: Vec<Tag> = wanted.iter().filter(is_bad).copied().collect();
        let any = rng.pick(&wanted);
        if bad.is_empty() && rng.percent(40) {
            return Some(Call::Failed { peer, tag: any });
        }
        let tag = rng.pick_or(&bad, any);
        (window(&state, [tag, other], rng), Vec::new())
    };
    Some(Call::Inventory {
        areas: post::Areas::enough(sizes),
        window,
        exchange,
        peer,
        prefixes: prefixes.into(),
    })
}

const LOST: &str = "a fetch is lost";
const TWICE: &str = "a repeated prefix loses two";
const BAD: &str = "the tag is bad too";
const BEHIND: &str = "a fetch, though a tombstone behind the count has the tag";
const ABOVE: &str = "a fetch is lost where the count is above the rows";
const FALLING: &str = "a fetch is lost where slots fall";

#[cfg(feature = "library")]
pub const ALL: [&str; 6] = [LOST, TWICE, BAD, BEHIND, ABOVE, FALLING];

/// What an empty inventory meets, if it is answered; the areas are those before it.
pub fn met(areas: &Areas, call: &Call) -> Vec<(&'static str, bool)> {
    let state = match call {
        Call::Inventory { prefixes, .. } if prefixes.is_empty() => decoded(areas),
        _ => return Vec::new(),
    };
    let Some(ending) = Ending::of(&state, call) else {
        return Vec::new();
    };
    let (rows, count) = tombstones(areas);
    let behind = rows.get(count..).unwrap_or_default();
    let lost = ending.lost();
    let fetched = ending.fetches_before();
    let firsts = ending
        .listed
        .iter()
        .filter_map(|start| ending.met(start).first().copied());
    let counted = &rows[..count.min(rows.len())];
    let rising = counted.is_sorted_by_key(|row| row.slot);
    vec![
        (LOST, !lost.is_empty()),
        (TWICE, (1..lost.len()).any(|place| lost[..place].contains(&lost[place]))),
        (
            BAD,
            firsts
                .into_iter()
                .any(|tag| ending.is_bad(tag) && ending.is_tombstoned(tag)),
        ),
        (
            BEHIND,
            fetched
                .iter()
                .any(|(tag, lost)| !lost && behind.iter().any(|row| row.tag == *tag)),
        ),
        (ABOVE, !lost.is_empty() && count > rows.len()),
        (FALLING, !lost.is_empty() && !rising),
    ]
}

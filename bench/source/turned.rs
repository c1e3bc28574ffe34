//! The tomb of a carried row as request Four has it, in plain Rust on the source's own types. The source's `receive_tomb` passes no limit there; this
//! one makes room in one pass through the held rows before it puts the turned row in.

use crate::backend::Backend;
use crate::core::Action;
use crate::courier;
use crate::state::{Device, Held, Tombstone};
use post::Tag;

const LIMIT: usize = 1_024;

/// At the limit the tombstone of least expiry goes, of the lowest slot among equals.
fn make_room(device: &mut Device, actions: &mut Vec<Action>) {
    let (mut count, mut least) = (0, (u32::MAX, u64::MAX));
    for (&slot, held) in &device.held {
        if let Held::Tombstone(tombstone) = held {
            count += 1;
            least = least.min((tombstone.expiry_min, slot));
        }
    }
    if count >= LIMIT {
        let (_, slot) = least;
        device.held.remove(&slot);
        actions.push(Action::DeleteCourier { slot });
    }
}

/// Whether the tomb is malformed. A tag that is not carried is left alone.
pub fn receive_tomb(device: &mut Device, tag: &Tag, secret: &[u8; 16], actions: &mut Vec<Action>) -> bool {
    let carried = device.held.iter().find_map(|(&slot, held)| match held {
        Held::Carried { envelope, .. } if envelope.tag == *tag => Some((slot, envelope)),
        _ => None,
    });
    let Some((slot, envelope)) = carried else {
        return false;
    };
    if !bool::from(courier::tombstone_matches::<Backend>(&envelope.c, secret)) {
        return true;
    }
    let turned = Held::Tombstone(Tombstone { tag: *tag, s: *secret, expiry_min: envelope.expiry_min });
    make_room(device, actions);
    let state = turned.row(slot).state;
    device.held.insert(slot, turned);
    actions.push(Action::PutCourier { slot, state });
    false
}

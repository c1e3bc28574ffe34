//! The third statement as a post, and areas and outcomes as the other posts say them.

use crate::rows::table;
use crate::state::{Outcome, Said, performed};
use crate::{Areas, Device, Reading};
use post::{
    Action, Answer, Bytes, Call, Contact, Custody, Dir, Envelope, Exchange, Held, HeldRow, Kind, OwnRow, Post, Reply,
    Screen, Sizes, SkippedRow, State, Verification, array,
};
use std::borrow::Cow;

pub struct Model {
    pub areas: Areas,
}

impl Model {
    pub fn new(sizes: Sizes) -> Self {
        Self {
            areas: Areas::fresh(&sizes),
        }
    }

    /// A post that has come to this state.
    pub fn holding(sizes: Sizes, state: &State) -> Self {
        Self {
            areas: Areas::holding(&sizes, state),
        }
    }
}

impl Post for Model {
    fn perform(&mut self, call: &Call) -> Answer {
        let outcome = performed(&mut self.areas, call);
        outcome.answer(call, &self.areas)
    }

    fn state(&mut self) -> Cow<'_, State> {
        Cow::Owned(decoded(&self.areas))
    }
}

fn verification(byte: u8) -> Verification {
    match byte {
        1 => Verification::Verified,
        2 => Verification::Compromised,
        _ => Verification::Unverified,
    }
}

fn own_row(row: &crate::Own, cells: &[u8]) -> OwnRow {
    OwnRow {
        contact: row.contact,
        message: row.message,
        tag: row.tag,
        secret: row.secret,
        expiry: row.expiry,
        copies: row.copies,
        renewed: row.renewed != 0,
        ciphertext: Reading::RIGHT.ciphertext(cells, row.cell, row.len).into(),
    }
}

fn held_rows(areas: &Areas, device: &Device) -> Vec<HeldRow> {
    let carried = table::<crate::Carried>(&areas.carried, device.carried)
        .into_iter()
        .map(|row| HeldRow {
            slot: row.slot,
            held: Held::Carried {
                depositor: row.depositor,
                envelope: Envelope {
                    tag: row.tag,
                    commitment: row.commitment,
                    expiry: row.expiry,
                    copies: row.copies,
                    ciphertext: Reading::RIGHT
                        .ciphertext(&areas.carried_cells, row.cell, row.len)
                        .into(),
                },
            },
        });
    let tombstones = table::<crate::Tombstone>(&areas.tombstones, device.tombstones).into_iter();
    let tombstones = tombstones.map(|row| HeldRow {
        slot: row.slot,
        held: Held::Tombstone {
            tag: row.tag,
            secret: row.secret,
            expiry: row.expiry,
        },
    });
    crate::own::merged(carried.collect(), tombstones.collect(), |row| row.slot)
}

fn exchange(session: &crate::Session) -> Exchange {
    let (exchange, listed, offered) = session.view();
    Exchange {
        peer: exchange.peer,
        complete: exchange.complete,
        listed,
        offered: offered.iter().map(|offer| (offer.tag, offer.copies)).collect(),
    }
}

/// The areas as the lists that every post has.
pub fn decoded(areas: &Areas) -> State {
    let device = &Device::read(&areas.device);
    let contacts: Vec<crate::ContactRow> = table(&areas.contacts, device.contacts);
    let own: Vec<crate::Own> = table(&areas.own, device.own);
    let bad: Vec<crate::BadTag> = table(&areas.bad_tags, device.bad_tags);
    State {
        clock: device.clock,
        setting: device.setting,
        contacts: contacts
            .iter()
            .map(|row| Contact {
                id: row.id,
                verification: verification(row.verification),
            })
            .collect(),
        own: own.iter().map(|row| own_row(row, &areas.own_cells)).collect(),
        held: held_rows(areas, device),
        next_slot: device.next_slot,
        bad: bad.iter().map(|row| (row.peer, row.tag)).collect(),
        exchanges: areas.sessions.iter().map(exchange).collect(),
    }
}

/// The ciphertext of the row with the tag whose cell a reply names.
fn sent_ciphertext(areas: &Areas, cell: u16, tag: &[u8]) -> Bytes {
    let (device, reading) = (Device::read(&areas.device), Reading::RIGHT);
    let own: Vec<crate::Own> = table(&areas.own, device.own);
    let own = own
        .iter()
        .find(|row| reading.own_reply(row.cell) == cell && row.tag == *tag);
    if let Some(row) = own {
        return reading.ciphertext(&areas.own_cells, row.cell, row.len).into();
    }
    let carried: Vec<crate::Carried> = table(&areas.carried, device.carried);
    let carried = carried
        .iter()
        .find(|row| reading.carried_reply(row.cell) == cell && row.tag == *tag);
    carried.map_or(Bytes::default(), |row| {
        reading.ciphertext(&areas.carried_cells, row.cell, row.len).into()
    })
}

fn reply(row: &[u8; 40], areas: &Areas) -> Reply {
    let tag = array(row, 3);
    match row[0] {
        0 => Reply::Fetch(tag),
        1 => Reply::Envelope(Envelope {
            tag,
            commitment: array(row, 19),
            expiry: u32::from_be_bytes(array(row, 35)),
            copies: row[39],
            ciphertext: sent_ciphertext(areas, u16::from_be_bytes(array(row, 1)), &tag),
        }),
        2 => Reply::Custody(tag, Custody::of(row[19]).expect("a code")),
        3 => Reply::Tomb(tag, array(row, 19)),
        kind => panic!("a reply of kind {kind}"),
    }
}

fn action(row: &[u8; 13]) -> Action {
    let number = u64::from_be_bytes(array(row, 1));
    match row[0] {
        0 => Action::Put { slot: number },
        1 => Action::Delete { slot: number },
        2 => Action::OwnPut {
            contact: number,
            message: u32::from_be_bytes(array(row, 9)),
        },
        kind => panic!("an action of kind {kind}"),
    }
}

impl Outcome {
    /// As the other posts answer; the areas are those after the call.
    pub fn answer(&self, call: &Call, areas: &Areas) -> Answer {
        match &self.said {
            Said::Refused(number) => Answer::Refused(*number),
            Said::Ours {
                contact,
                generation,
                index,
            } => Answer::Ours {
                contact: *contact,
                generation: *generation,
                index: *index,
            },
            Said::Own(row) => Answer::Own(own_row(row, &areas.own_cells)),
            Said::NoEnvelope => Answer::NoEnvelope,
            Said::Row(row) => Answer::Row(row.clone()),
            Said::Missing if call.kind() == Kind::RowBlob => Answer::Blob(None),
            Said::Wrote(_) => self.written(call),
            said => Answer::Done {
                malformed: *said == Said::Malformed,
                replies: self.replies.iter().map(|row| reply(row, areas)).collect(),
                actions: self.actions.iter().map(action).collect(),
                searched: self.searched(),
            },
        }
    }

    /// At the end of an inventory, for how many rows the tombstones were searched; 0 for all else.
    pub fn searched(&self) -> usize {
        match self.said {
            Said::Ended { searched } => searched,
            _ => 0,
        }
    }

    fn written(&self, call: &Call) -> Answer {
        let key = |row: &[u8]| {
            let row = SkippedRow::read(row);
            (Dir::of(row.dir).expect("a direction"), row.generation, row.index)
        };
        match call.kind() {
            Kind::InventoryOfOurs => Answer::Listed(self.bytes.as_chunks().0.to_vec()),
            Kind::Window => Answer::Window(self.bytes.chunks_exact(SkippedRow::WIDTH).map(key).collect()),
            Kind::RowBlob => Answer::Blob(Some(self.bytes.clone().into())),
            Kind::Page => Answer::Page(Screen(self.bytes.clone())),
            _ => Answer::Saved(self.bytes.clone().into()),
        }
    }
}

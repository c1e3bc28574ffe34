//! Envelopes and inventories.

use crate::Library;
use crate::calls::{fixed, lend};
use goosetable_sys as sys;
use lent::{Outcome, Own, Row, Said};
use post::{Custody, Envelope, NewOwn};

impl Library {
    pub(super) fn envelope(&mut self, peer: u64, envelope: &Envelope, window: &[u8]) -> Outcome {
        let read = [&envelope.tag[..], &envelope.commitment, &envelope.ciphertext, window];
        let [tag, commitment, ciphertext, window] = lend(&mut self.inputs, read);
        let envelope = sys::Envelope {
            tag: fixed(tag),
            commitment: fixed(commitment),
            expiry: envelope.expiry,
            copies: envelope.copies,
            ciphertext,
        };
        let answer = self.lent.areas().envelope(peer, &envelope, window);
        self.answered(answer, Said::Done)
    }

    /// With any byte as its direction.
    pub(crate) fn own_envelope_of(&mut self, new: &NewOwn, dir: u8) -> sys::Answer {
        let read = [&new.route_key[..], &new.secret, &new.ciphertext];
        let [route_key, secret, ciphertext] = lend(&mut self.inputs, read);
        let new = sys::OwnEnvelope {
            contact: new.contact,
            msgno: new.message,
            route_key: fixed(route_key),
            dir,
            generation: new.generation,
            idx: new.index,
            secret: fixed(secret),
            ciphertext,
        };
        self.lent.areas().own_envelope(&new, self.row.array_mut())
    }

    pub(super) fn own_envelope(&mut self, new: &NewOwn) -> Outcome {
        let answer = self.own_envelope_of(new, new.dir.label());
        let row = Own::read(self.row.bytes());
        self.answered(answer, Said::Own(row))
    }

    pub(super) fn fetch(&mut self, peer: u64, tag: &[u8; 16]) -> Outcome {
        let [tag] = lend(&mut self.inputs, [tag]).map(fixed);
        let answer = self.lent.areas().fetch(peer, tag);
        let length = answer.length;
        self.answered(answer, Said::Found { length })
    }

    /// The empty list that is done has its count in `length`; a list that is gathered has 0 there.
    pub(super) fn inventory(&mut self, exchange: usize, peer: u64, window: &[u8], listed: &[u8]) -> Outcome {
        let [window, lent] = lend(&mut self.inputs, [window, listed]);
        let session = &mut self.sessions[exchange].areas();
        let answer = self.lent.areas().inventory(session, peer, window, lent);
        let ended = Said::Ended {
            searched: answer.length,
        };
        self.answered(answer, if listed.is_empty() { ended } else { Said::Done })
    }

    /// With any byte as its code.
    pub(crate) fn custody_code_of(&mut self, exchange: usize, peer: u64, tag: &[u8; 16], code: u8) -> sys::Answer {
        let [tag] = lend(&mut self.inputs, [tag]).map(fixed);
        let session = &mut self.sessions[exchange].areas();
        self.lent.areas().custody_code(session, peer, tag, code)
    }

    pub(super) fn custody_code(&mut self, exchange: usize, peer: u64, tag: &[u8; 16], code: Custody) -> Outcome {
        let answer = self.custody_code_of(exchange, peer, tag, code.code());
        self.answered(answer, Said::Done)
    }

    pub(super) fn inventory_of_ours(&mut self, peer: u64) -> Outcome {
        let areas = self.lent.areas();
        let answer = areas.tables().inventory_of_ours(peer, self.answer.bytes_mut());
        self.wrote(answer, sys::PREFIX)
    }
}

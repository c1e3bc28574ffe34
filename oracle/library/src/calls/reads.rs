//! Rows as blobs, the saved file, the screen page, the window.

use crate::Library;
use crate::calls::lend;
use goosetable_sys as sys;
use lent::{Outcome, Said};
use post::{Bytes, Envelope, Held};

fn held(row: sys::Row, blob: &[u8]) -> Option<Held> {
    match row.kind {
        sys::KIND_CARRIED => Some(Held::Carried {
            depositor: row.depositor,
            envelope: Envelope {
                tag: row.tag,
                commitment: row.second,
                expiry: row.expiry_min,
                copies: row.copies,
                ciphertext: Bytes::from(&blob[sys::CARRIED_HEAD..]),
            },
        }),
        sys::KIND_TOMBSTONE => Some(Held::Tombstone {
            tag: row.tag,
            secret: row.second,
            expiry: row.expiry_min,
        }),
        _ => None,
    }
}

/// The row as the library says it; what its kind has not is 0.
fn row(held: &Option<Held>) -> sys::Row {
    match held {
        None => sys::Row::default(),
        Some(Held::Carried { depositor, envelope }) => sys::Row {
            depositor: *depositor,
            expiry_min: envelope.expiry,
            tag: envelope.tag,
            second: envelope.commitment,
            copies: envelope.copies,
            kind: sys::KIND_CARRIED,
        },
        Some(Held::Tombstone { tag, secret, expiry }) => sys::Row {
            expiry_min: *expiry,
            tag: *tag,
            second: *secret,
            kind: sys::KIND_TOMBSTONE,
            ..sys::Row::default()
        },
    }
}

impl Library {
    pub(super) fn row_blob(&mut self, slot: u64) -> Outcome {
        let areas = self.lent.areas();
        let answer = areas.tables().row_blob(slot, self.answer.bytes_mut());
        self.wrote(answer, 1)
    }

    pub(super) fn save(&mut self) -> Outcome {
        let areas = self.lent.areas();
        let answer = areas.tables().save(self.answer.bytes_mut());
        self.wrote(answer, 1)
    }

    pub(super) fn page(&mut self, number: u64) -> Outcome {
        let areas = self.lent.areas();
        let answer = areas.tables().page(number, self.answer.bytes_mut());
        self.wrote(answer, 1)
    }

    pub(super) fn load(&mut self, file: &[u8]) -> Outcome {
        let [file] = lend(&mut self.inputs, [file]);
        let answer = self.lent.areas().load(file);
        self.answered(answer, Said::Done)
    }

    pub(super) fn window(&mut self, skipped: &[u8], chains: &[u8]) -> Outcome {
        let [skipped, chains] = lend(&mut self.inputs, [skipped, chains]);
        let answer = sys::window(skipped, chains, self.answer.bytes_mut());
        self.wrote(answer, sys::KEY_ROW)
    }

    pub(super) fn row_read(&mut self, blob: &[u8]) -> Outcome {
        let [lent] = lend(&mut self.inputs, [blob]);
        let read = sys::row_read(lent);
        let held = held(read, blob);
        if row(&held) != read {
            self.differences.push(format!("{read:?} for {held:?}"));
        }
        Outcome::only(Said::Row(held))
    }
}

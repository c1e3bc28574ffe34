//! Switches that make the library wrong in one named way, to see that a run tells it apart.

use crate::Library;
use lent::{Device, Exchange, Outcome, Said};

#[derive(Debug, Clone, Copy, PartialEq, Eq)]
pub enum Spoiled {
    RefusalNumber,
    ReplyByte,
    ActionByte,
    ActionCount,
    RowByte,
    CellByte,
    RefusedCallWrites,
    ByteBehindTheRows,
    ByteBesideAnArea,
    NextSlot,
    /// The device's flag rewritten where its byte said so already.
    FlagRewritten,
    /// The bytes of a peer for whom the exchange is not open.
    ClosedPeer,
    /// A byte of what a call wrote to its answer area, and one behind it.
    AnswerByte,
    ByteBehindTheAnswer,
    /// The count at the end of an inventory.
    SearchedCount,
    /// A byte read past the end of an area: it ends the program.
    ReadsOutside,
}

impl Spoiled {
    pub fn named(name: &str) -> Option<Self> {
        let mut all = Self::ALL.into_iter().chain([Self::ReadsOutside]);
        all.find(|spoiled| format!("{spoiled:?}") == name)
    }

    /// Those that leave or say something wrong.
    pub const ALL: [Self; 15] = [
        Self::RefusalNumber,
        Self::ReplyByte,
        Self::ActionByte,
        Self::ActionCount,
        Self::RowByte,
        Self::CellByte,
        Self::RefusedCallWrites,
        Self::ByteBehindTheRows,
        Self::ByteBesideAnArea,
        Self::NextSlot,
        Self::FlagRewritten,
        Self::ClosedPeer,
        Self::AnswerByte,
        Self::ByteBehindTheAnswer,
        Self::SearchedCount,
    ];
}

fn turn(byte: Option<&mut u8>) {
    if let Some(byte) = byte {
        *byte ^= 1;
    }
}

impl Library {
    fn turn_closed_peers(&mut self) {
        for session in &mut self.sessions {
            let exchange = session.exchange.bytes_mut();
            if exchange[Exchange::OPEN] == 0 {
                turn(exchange.get_mut(Exchange::PEER));
            }
        }
    }

    /// What a wrong library would have left and said.
    pub(crate) fn spoil(&mut self, spoiled: Spoiled, outcome: &mut Outcome) {
        let refused = matches!(outcome.said, Said::Refused(_));
        let device = Device::read(&self.expected.device);
        match spoiled {
            Spoiled::RefusalNumber => {
                if let Said::Refused(number) = &mut outcome.said {
                    *number += 1;
                }
            }
            Spoiled::SearchedCount => {
                if let Said::Ended { searched } = &mut outcome.said {
                    *searched ^= 1;
                }
            }
            Spoiled::ReplyByte if !outcome.replies.is_empty() => turn(self.lent.replies.bytes_mut().get_mut(20)),
            Spoiled::ActionByte if !outcome.actions.is_empty() => turn(self.lent.actions.bytes_mut().get_mut(12)),
            Spoiled::ActionCount if !outcome.actions.is_empty() => outcome.actions.truncate(outcome.actions.len() - 1),
            Spoiled::RowByte if device.tombstones > 0 => turn(self.lent.tombstones.bytes_mut().get_mut(43)),
            Spoiled::CellByte if device.carried > 0 => turn(self.lent.carried_cells.bytes_mut().get_mut(1)),
            Spoiled::RefusedCallWrites if refused => turn(self.lent.carried.bytes_mut().last_mut()),
            Spoiled::ByteBehindTheRows if device.contacts > 2 => turn(self.lent.contacts.bytes_mut().last_mut()),
            Spoiled::ByteBesideAnArea if device.contacts > 2 => turn(self.lent.contacts.zone_mut().first_mut()),
            Spoiled::NextSlot if device.tombstones > 0 => turn(self.lent.device.bytes_mut().last_mut()),
            Spoiled::FlagRewritten if device.setting.enabled => self.lent.device.bytes_mut()[Device::ENABLED] = 1,
            Spoiled::ClosedPeer => self.turn_closed_peers(),
            Spoiled::AnswerByte if !outcome.bytes.is_empty() => turn(self.answer.bytes_mut().first_mut()),
            Spoiled::ByteBehindTheAnswer => turn(self.answer.bytes_mut().get_mut(outcome.bytes.len())),
            Spoiled::ReadsOutside if device.contacts > 2 => self.lent.contacts.read_outside(),
            _ => {}
        }
    }
}

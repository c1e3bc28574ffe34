//! Document 01's rules a second time: flat lists, one condition for each refusal number, and nothing taken from
//! the Rust source. A switch makes it wrong in one named way, to see whether a run tells it apart.

mod custody;
mod exchange;
mod file;
mod page;
mod refusals;
mod searched;
mod tags;
mod tombs;
mod turned;
mod upkeep;
mod window;
mod wrong;

pub use tags::{commitment, labelled, leb128, route_tag};
pub use wrong::Wrong;

use std::borrow::Cow;

use post::{Action, Answer, Call, Contact, Custody, Exchange, Post, Reply, Setting, Sizes, State};

pub struct Rules {
    state: State,
    sizes: Sizes,
    wrong: Option<Wrong>,
    /// Fresh exchanges so far, for the version that serves only the first.
    opened: usize,
}

const LAST_MINUTE: u64 = u32::MAX as u64;
const LAST_SLOT: u64 = u64::MAX;

fn done(replies: Vec<Reply>, actions: Vec<Action>) -> Answer {
    Answer::Done {
        malformed: false,
        replies,
        actions,
        searched: 0,
    }
}

/// An inventory, with its count.
fn counted(malformed: bool, replies: Vec<Reply>, searched: usize) -> Answer {
    Answer::Done {
        malformed,
        replies,
        actions: Vec::new(),
        searched,
    }
}

fn malformed() -> Answer {
    counted(true, Vec::new(), 0)
}

impl Rules {
    pub fn new(sizes: Sizes) -> Self {
        Self {
            state: State::fresh(&sizes),
            sizes,
            wrong: None,
            opened: 0,
        }
    }

    /// A post that has come to this state.
    pub fn holding(sizes: Sizes, state: State) -> Self {
        Self {
            state,
            ..Self::new(sizes)
        }
    }

    pub fn wrong_in(sizes: Sizes, wrong: Wrong) -> Self {
        Self {
            wrong: Some(wrong),
            ..Self::new(sizes)
        }
    }

    fn is(&self, wrong: Wrong) -> bool {
        self.wrong == Some(wrong)
    }

    /// The right value, or the other one under the switch.
    fn unless<T>(&self, wrong: Wrong, right: T, other: T) -> T {
        if self.is(wrong) { other } else { right }
    }

    /// Seconds / 60, at most 2^32 − 1.
    fn minute(&self) -> u32 {
        let minutes = self.state.clock / self.unless(Wrong::MinuteOf61Seconds, 60, 61);
        if self.is(Wrong::MinuteWraps) {
            return minutes as u32;
        }
        minutes.min(LAST_MINUTE) as u32
    }

    /// Minute + lifetime, stopped at 2^32 − 1.
    fn lifetime_end(&self) -> u32 {
        let end = u64::from(self.minute()) + u64::from(self.state.setting.lifetime);
        if self.is(Wrong::LifetimeEndWraps) {
            return end as u32;
        }
        end.min(LAST_MINUTE) as u32
    }

    fn knows(&self, id: u64) -> bool {
        self.state.contacts.iter().any(|contact| contact.id == id)
    }

    fn contact(&mut self, new: Contact) -> Answer {
        let moves = self.is(Wrong::AlteredContactMovesToTheEnd);
        let place = self.state.contacts.iter().position(|contact| contact.id == new.id);
        match place {
            Some(place) if moves => {
                self.state.contacts.remove(place);
                self.state.contacts.push(new);
                self.sort_own();
            }
            Some(place) => self.state.contacts[place] = new,
            None => self.state.contacts.push(new),
        }
        Answer::nothing()
    }

    fn fresh_exchange(&mut self, exchange: usize, peer: u64) -> Answer {
        self.opened += 1;
        let keeps = self.is(Wrong::FreshExchangeKeepsOffers);
        let before = std::mem::take(&mut self.state.exchanges[exchange]);
        self.state.exchanges[exchange] = Exchange {
            peer: Some(peer),
            offered: if keeps { before.offered } else { Default::default() },
            ..Exchange::default()
        };
        Answer::nothing()
    }

    fn set_clock(&mut self, seconds: u64) -> Answer {
        let back = seconds < self.state.clock && self.is(Wrong::ClockNeverGoesBack);
        self.state.clock = if back { self.state.clock } else { seconds };
        Answer::nothing()
    }

    /// What the host sets.
    fn set(&mut self, call: &Call) -> Answer {
        match *call {
            Call::Contact { id, verification } => self.contact(Contact { id, verification }),
            Call::Setting {
                enabled,
                copies,
                lifetime,
            } => {
                self.state.setting = Setting {
                    enabled,
                    copies,
                    lifetime,
                };
                Answer::nothing()
            }
            Call::Clock { seconds } => self.set_clock(seconds),
            Call::FreshExchange { exchange, peer, .. } => self.fresh_exchange(exchange, peer),
            _ => self.read_only(call),
        }
    }

    /// What changes rows and exchanges.
    fn change(&mut self, call: &Call) -> Answer {
        match call {
            Call::Envelope {
                window, peer, envelope, ..
            } => self.envelope(window, *peer, envelope),
            Call::Inventory {
                window,
                exchange,
                peer,
                prefixes,
                ..
            } => self.inventory(window, *exchange, *peer, prefixes),
            Call::Fetch { peer, tag, .. } => self.fetch(*peer, tag),
            Call::CustodyCode {
                exchange, tag, code, ..
            } => self.custody_code(*exchange, tag, *code),
            Call::Tomb { tag, secret, .. } => self.tomb(*tag, *secret),
            Call::Opened {
                tag, secret, expiry, ..
            } => self.opened(*tag, *secret, *expiry),
            Call::Failed { peer, tag } => self.failed(*peer, *tag),
            Call::StoredTombstone {
                tag, secret, expiry, ..
            } => done(Vec::new(), self.store(*tag, *secret, *expiry)),
            Call::OwnEnvelope(new) => self.own_envelope(new),
            Call::Maintenance { .. } => self.maintenance(),
            _ => self.set(call),
        }
    }

    fn read_only(&mut self, call: &Call) -> Answer {
        match call {
            Call::InventoryOfOurs { peer, .. } => self.inventory_of_ours(*peer),
            Call::Window { skipped, chains, .. } => self.window(skipped, chains),
            Call::RowBlob { slot, .. } => self.row_blob(*slot),
            Call::RowRead { blob } => Answer::Row(self.read_row(blob)),
            Call::Save { .. } => self.save(),
            Call::Load { file } => self.load(file),
            Call::Page { number, .. } => self.page(*number),
            _ => unreachable!("no other call"),
        }
    }

    /// The posts that are worth nothing, and the answers with counts that are made up.
    fn spoiled(&self, mut answer: Answer) -> Answer {
        if let Answer::Done { replies, actions, .. } = &mut answer {
            match self.wrong {
                Some(Wrong::InventsReplies) => replies.extend(replies.last().cloned()),
                Some(Wrong::InventsActions) => actions.extend(actions.last().cloned()),
                Some(Wrong::SaysFullToAll) => {
                    for reply in replies {
                        if let Reply::Custody(_, code) = reply {
                            *code = Custody::Full;
                        }
                    }
                }
                _ => {}
            }
        }
        answer
    }
}

impl Post for Rules {
    fn perform(&mut self, call: &Call) -> Answer {
        if self.is(Wrong::RefusesAll) {
            return Answer::Refused(1);
        }
        if let Some(number) = self.refusal(call) {
            if self.is(Wrong::RefusalTakesASlot) {
                self.state.next_slot = self.state.next_slot.saturating_add(1);
            }
            return Answer::Refused(number);
        }
        let idle = self.is(Wrong::ChangesNothing) || (self.is(Wrong::ServesTheFirstSession) && self.opened > 1);
        if idle {
            return Answer::nothing();
        }
        let answer = self.change(call);
        self.spoiled(answer)
    }

    fn state(&mut self) -> Cow<'_, State> {
        Cow::Borrowed(&self.state)
    }
}

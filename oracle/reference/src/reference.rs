//! A post whose answers are the source's.

use crate::core::source::Raw;
use crate::refusals::{rows, window_rows};
use crate::{Source, raw};
use post::{Answer, Call, ChainRow, Custody, Exchange, NewOwn, Post, Prefix, Sizes, SkippedRow, State, Tag};
use std::borrow::Cow;
use std::collections::BTreeSet;

pub struct Reference {
    pub(crate) source: Source,
    pub(crate) sizes: Sizes,
    /// What the source's answers show of each exchange; its fields can't be read. `dissect` puts it to the test.
    pub(crate) exchanges: Vec<Exchange>,
    /// Every tag that was ever held, for `dissect`.
    pub(crate) seen: BTreeSet<Tag>,
}

pub(crate) fn done(raw: Raw) -> Answer {
    done_after(raw, 0)
}

/// With the count of rows for which the tombstones were searched.
fn done_after(raw: Raw, searched: usize) -> Answer {
    Answer::Done {
        malformed: raw.malformed,
        replies: raw.replies,
        actions: raw.actions,
        searched,
    }
}

fn refused_or(result: Result<Raw, u8>) -> Answer {
    result.map_or_else(Answer::Refused, done)
}

impl Reference {
    pub fn new(sizes: Sizes) -> Self {
        Self {
            source: Source::new(sizes.exchanges),
            exchanges: vec![Exchange::default(); sizes.exchanges],
            seen: BTreeSet::new(),
            sizes,
        }
    }

    /// An envelope, or "ours" where the source went on to open it.
    fn envelope(&mut self, peer: u64, envelope: &post::Envelope, window: &[u8]) -> Answer {
        let rows = window_rows(window);
        self.seen.insert(envelope.tag);
        match self.guarded(|source| source.envelope(peer, envelope, &rows)) {
            Ok(Raw {
                ours: Some((contact, generation, index)),
                ..
            }) => Answer::Ours {
                contact,
                generation,
                index,
            },
            result => refused_or(result),
        }
    }

    fn inventory(&mut self, exchange: usize, peer: u64, prefixes: &[u8], window: &[u8]) -> Answer {
        let prefixes: Vec<Prefix> = prefixes.as_chunks::<8>().0.to_vec();
        let ends = prefixes.is_empty();
        let rows = window_rows(window);
        let raw = self.source.inventory(exchange, peer, prefixes.clone(), &rows);
        let shown = &mut self.exchanges[exchange];
        if raw.malformed {
            return done(raw);
        }
        if !ends {
            shown.listed.extend(prefixes);
            return done(raw);
        }
        let listed = std::mem::take(&mut shown.listed);
        let offers = raw.offers();
        shown.complete = true;
        shown.offered = offers.iter().copied().collect();
        let searched = self.source.searched(peer, &listed, &rows, &offers);
        done_after(raw, searched)
    }

    fn own_envelope(&mut self, new: &NewOwn) -> Answer {
        let Some(row) = self.source.own_envelope(new) else {
            return Answer::NoEnvelope;
        };
        if self.source.own_count() >= self.sizes.own_cells {
            return Answer::Refused(4);
        }
        self.seen.insert(row.tag);
        self.source.hold_own(new, &row);
        Answer::Own(row)
    }

    fn custody_code(&mut self, exchange: usize, peer: u64, tag: Tag, code: Custody) -> Answer {
        self.exchanges[exchange].offered.remove(&tag);
        done(self.source.custody_code(exchange, peer, tag, code.code()))
    }

    fn fresh_exchange(&mut self, exchange: usize, peer: u64) -> Answer {
        self.source.fresh_exchange(exchange, peer);
        self.exchanges[exchange] = Exchange {
            peer: Some(peer),
            ..Exchange::default()
        };
        Answer::nothing()
    }

    fn setting(&mut self, enabled: bool, copies: u8, lifetime: u16) -> Answer {
        if self.source.setting(enabled, copies, lifetime) {
            Answer::nothing()
        } else {
            Answer::Refused(7)
        }
    }

    fn load(&mut self, file: &[u8]) -> Answer {
        let result = self.replace_held(file);
        let held = self.source.state().held;
        self.seen.extend(held.iter().map(|row| *row.held.tag()));
        result.map_or_else(Answer::Refused, |()| Answer::nothing())
    }

    fn read_only(&self, call: &Call) -> Answer {
        match call {
            Call::InventoryOfOurs { peer, .. } => Answer::Listed(self.source.inventory_of_ours(*peer).concat()),
            Call::Window { skipped, chains, .. } => {
                let skipped: Vec<_> = rows(skipped, SkippedRow::WIDTH).map(SkippedRow::read).collect();
                let chains: Vec<_> = rows(chains, ChainRow::WIDTH).map(ChainRow::read).collect();
                Answer::Window(raw::window(&skipped, &chains))
            }
            Call::RowBlob { slot, .. } => Answer::Blob(self.source.blob(*slot).map(Into::into)),
            Call::RowRead { blob } => Answer::Row(raw::read_row(blob)),
            Call::Save { .. } => Answer::Saved(self.save()),
            _ => unreachable!("a call of the source that changes nothing"),
        }
    }

    fn record(&mut self, call: &Call) -> Answer {
        match call {
            Call::Fetch { peer, tag, .. } => done(self.source.fetch(*peer, *tag)),
            Call::Tomb { peer, tag, secret, .. } => {
                refused_or(self.guarded(|source| source.tomb(*peer, *tag, *secret)))
            }
            Call::Opened {
                peer,
                tag,
                secret,
                expiry,
                ..
            } => refused_or(self.guarded(|source| source.opened(*peer, *tag, *secret, *expiry))),
            Call::Failed { peer, tag } => done(self.source.failed(*peer, *tag, tag[15] % 2 == 0)),
            Call::StoredTombstone {
                tag, secret, expiry, ..
            } => refused_or(self.guarded(|source| source.store_tombstone(*tag, *secret, *expiry))),
            Call::Maintenance { .. } => done(self.source.maintain()),
            _ => self.read_only(call),
        }
    }
}

impl Reference {
    /// What the host sets.
    fn set(&mut self, call: &Call) -> Answer {
        match *call {
            Call::Contact { id, verification } => {
                self.source.contact(id, verification);
                Answer::nothing()
            }
            Call::Setting {
                enabled,
                copies,
                lifetime,
            } => self.setting(enabled, copies, lifetime),
            Call::Clock { seconds } => {
                self.source.clock(seconds);
                Answer::nothing()
            }
            Call::FreshExchange { exchange, peer, .. } => self.fresh_exchange(exchange, peer),
            _ => self.record(call),
        }
    }
}

impl Post for Reference {
    fn perform(&mut self, call: &Call) -> Answer {
        if let Some(number) = self.refusal(call) {
            return Answer::Refused(number);
        }
        match call {
            Call::Envelope {
                window, peer, envelope, ..
            } => self.envelope(*peer, envelope, window),
            Call::Inventory {
                window,
                exchange,
                peer,
                prefixes,
                ..
            } => self.inventory(*exchange, *peer, prefixes, window),
            Call::CustodyCode {
                exchange,
                peer,
                tag,
                code,
                ..
            } => self.custody_code(*exchange, *peer, *tag, *code),
            Call::OwnEnvelope(new) => self.own_envelope(new),
            Call::Load { file } => self.load(file),
            _ => self.set(call),
        }
    }

    fn state(&mut self) -> Cow<'_, State> {
        Cow::Owned(State {
            exchanges: self.exchanges.clone(),
            ..self.source.state()
        })
    }
}

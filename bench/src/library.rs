//! The library as a host links it: the areas that it is lent, and each call.

use goosetable_sys as sys;
use post::{Action, Answer, Bytes, Call, Custody, Dir, Envelope, Held, NewOwn, OwnRow, Reply, Screen, array};

const CELLS: usize = sys::MAX_ROWS;
/// R.
const TOMBSTONES: usize = 1_024;
const BAD_TAGS: usize = 512;

/// What a call may change, but the cells and the answer areas.
#[derive(Clone, Copy)]
struct Tables {
    device: [u8; sys::DEVICE],
    exchange: [u8; sys::EXCHANGE],
    contacts: [u8; sys::CONTACTS],
    own: [u8; sys::OWN],
    carried: [u8; sys::CARRIED],
    tombstones: [u8; TOMBSTONES * sys::TOMBSTONE_ROW],
    bad_tags: [u8; BAD_TAGS * sys::BAD_TAG_ROW],
    prefixes: [u8; sys::PREFIXES],
    offers: [u8; sys::OFFERS],
}

/// The areas that calls are lent, but those of one call alone.
struct Lent {
    tables: Box<Tables>,
    own_cells: Vec<u8>,
    carried_cells: Vec<u8>,
    replies: Vec<u8>,
    actions: Vec<u8>,
}

impl Lent {
    #[inline]
    fn areas(&mut self) -> (sys::Areas<'_>, sys::Session<'_>) {
        let t = &mut *self.tables;
        let areas = sys::Areas {
            device: &mut t.device,
            contacts: &mut t.contacts,
            own: &mut t.own,
            carried: &mut t.carried,
            tombstones: &mut t.tombstones,
            bad_tags: &mut t.bad_tags,
            own_cells: &mut self.own_cells,
            carried_cells: &mut self.carried_cells,
            replies: &mut self.replies,
            actions: &mut self.actions,
        };
        (areas, sys::Session { exchange: &mut t.exchange, prefixes: &mut t.prefixes, offers: &mut t.offers })
    }
}

pub struct Library {
    lent: Lent,
    kept: Box<Tables>,
    own_row: [u8; sys::OWN_ROW],
    /// Prefixes, window rows, a blob or a file.
    answer: Vec<u8>,
}

/// What a function of the library returned.
pub enum Said {
    Answer(sys::Answer),
    Row(sys::Row),
}

impl Library {
    pub fn new() -> Self {
        let mut tables = Box::new(Tables {
            device: [0; sys::DEVICE],
            exchange: [0; sys::EXCHANGE],
            contacts: [0; sys::CONTACTS],
            own: [0; sys::OWN],
            carried: [0; sys::CARRIED],
            tombstones: [0; TOMBSTONES * sys::TOMBSTONE_ROW],
            bad_tags: [0; BAD_TAGS * sys::BAD_TAG_ROW],
            prefixes: [0; sys::PREFIXES],
            offers: [0; sys::OFFERS],
        });
        sys::fresh(&mut tables.device);
        Self {
            kept: tables.clone(),
            lent: Lent {
                tables,
                own_cells: vec![0; CELLS * sys::CELL],
                carried_cells: vec![0; CELLS * sys::CELL],
                replies: vec![0; sys::REPLIES],
                actions: vec![0; sys::actions(TOMBSTONES)],
            },
            own_row: [0; sys::OWN_ROW],
            answer: vec![0; sys::file(CELLS, TOMBSTONES)],
        }
    }

    /// What `restore` goes back to. A row keeps its cell, so that the cells need not go back.
    pub fn keep(&mut self) {
        *self.kept = *self.lent.tables;
    }

    pub fn restore(&mut self) {
        *self.lent.tables = *self.kept;
    }

    /// A call that must be done, before anything is measured.
    pub fn perform(&mut self, call: &Call) {
        let Said::Answer(answer) = self.run(call) else {
            panic!("a row was read by {:?}", call.kind());
        };
        assert!(answer.said == sys::DONE, "{:?} said {}", call.kind(), answer.said);
    }

    /// A screen page.
    pub fn shown(&mut self, number: u64) -> &[u8] {
        let answer = self.page(number);
        assert!(answer.said == sys::DONE, "page said {}", answer.said);
        &self.answer[..answer.length]
    }

    /// The saved file of the held rows.
    pub fn saved(&mut self) -> Bytes {
        let answer = self.lent.areas().0.tables().save(&mut self.answer);
        assert!(answer.said == sys::DONE, "save said {}", answer.said);
        self.answer[..answer.length].into()
    }
}

// ---- each call

/// An envelope as a call takes it.
fn sent(envelope: &Envelope) -> sys::Envelope<'_> {
    sys::Envelope {
        tag: &envelope.tag,
        commitment: &envelope.commitment,
        expiry: envelope.expiry,
        copies: envelope.copies,
        ciphertext: &envelope.ciphertext,
    }
}

/// A queued message as a call takes it.
fn queued(new: &NewOwn) -> sys::OwnEnvelope<'_> {
    sys::OwnEnvelope {
        contact: new.contact,
        msgno: new.message,
        route_key: &new.route_key,
        dir: new.dir.label(),
        generation: new.generation,
        idx: new.index,
        secret: &new.secret,
        ciphertext: &new.ciphertext,
    }
}

impl Library {
    pub fn page(&mut self, number: u64) -> sys::Answer {
        self.lent.areas().0.tables().page(number, &mut self.answer)
    }

    #[inline(never)]
    pub fn run(&mut self, call: &Call) -> Said {
        let (mut areas, mut session) = self.lent.areas();
        Said::Answer(match call {
            Call::Contact { id, verification } => areas.contact(*id, *verification as u8),
            Call::Setting { enabled, copies, lifetime } => areas.setting((*enabled).into(), *copies, *lifetime),
            Call::Clock { seconds } => areas.clock(*seconds),
            Call::FreshExchange { peer, .. } => areas.tables().fresh_exchange(&mut session, *peer),
            Call::Envelope { window, peer, envelope, .. } => areas.envelope(*peer, &sent(envelope), window),
            Call::Inventory { window, peer, prefixes, .. } => areas.inventory(&mut session, *peer, window, prefixes),
            Call::Fetch { peer, tag, .. } => areas.fetch(*peer, tag),
            Call::CustodyCode { peer, tag, code, .. } => areas.custody_code(&mut session, *peer, tag, code.code()),
            Call::Tomb { peer, tag, secret, .. } => areas.tomb(*peer, tag, secret),
            Call::Opened { peer, tag, secret, expiry, .. } => areas.opened(*peer, tag, secret, *expiry),
            Call::Failed { peer, tag } => areas.failed(*peer, tag),
            Call::StoredTombstone { tag, secret, expiry, .. } => areas.stored_tombstone(tag, secret, *expiry),
            Call::OwnEnvelope(new) => areas.own_envelope(&queued(new), &mut self.own_row),
            Call::Maintenance { .. } => areas.maintenance(),
            Call::InventoryOfOurs { peer, .. } => areas.tables().inventory_of_ours(*peer, &mut self.answer),
            Call::Window { skipped, chains, .. } => sys::window(skipped, chains, &mut self.answer),
            Call::RowBlob { slot, .. } => areas.tables().row_blob(*slot, &mut self.answer),
            Call::RowRead { blob } => return Said::Row(sys::row_read(blob)),
            Call::Save { .. } => areas.tables().save(&mut self.answer),
            Call::Load { file } => areas.load(file),
            Call::Page { number, .. } => areas.tables().page(*number, &mut self.answer),
        })
    }
}

// ---- what a call said, as the source's answers are shown

/// The rows at the front of an area.
fn rows<const N: usize>(area: &[u8], count: usize) -> impl Iterator<Item = &[u8; N]> {
    area.as_chunks().0.iter().take(count)
}

/// The ciphertext of the row that names a cell: own rows name those from 0 on, carried ones those from 256 on.
fn ciphertext(library: &Library, cell: u16) -> Bytes {
    let (lent, cell) = (&library.lent, usize::from(cell));
    let (rows, width, cells) = if cell < CELLS {
        (&lent.tables.own[..], sys::OWN_ROW, &lent.own_cells)
    } else {
        (&lent.tables.carried[..], sys::CARRIED_ROW, &lent.carried_cells)
    };
    let number = |row: &[u8], from_end: usize| usize::from(u16::from_be_bytes(array(row, width - from_end)));
    let row = rows.chunks_exact(width).find(|row| number(row, 2) == cell % CELLS);
    let at = cell % CELLS * sys::CELL;
    cells[at..at + number(row.expect("a row of the cell"), 4)].into()
}

fn reply(library: &Library, row: &[u8; sys::REPLY_ROW]) -> Reply {
    let row = sys::ReplyRow::read(row);
    let mut body = sys::Fields(&row.body);
    let tag = body.array();
    match row.kind {
        sys::REPLY_FETCH => Reply::Fetch(tag),
        sys::REPLY_ENVELOPE => Reply::Envelope(Envelope {
            tag,
            commitment: body.array(),
            expiry: body.u32(),
            copies: body.u8(),
            ciphertext: ciphertext(library, row.cell),
        }),
        sys::REPLY_CUSTODY => Reply::Custody(tag, Custody::of(body.u8()).expect("one of five codes")),
        sys::REPLY_TOMB => Reply::Tomb(tag, body.array()),
        kind => panic!("a reply of kind {kind}"),
    }
}

fn action(row: &[u8; sys::ACTION_ROW]) -> Action {
    let sys::ActionRow { kind, number, msgno } = sys::ActionRow::read(row);
    match kind {
        sys::ACTION_PUT => Action::Put { slot: number },
        sys::ACTION_DELETE => Action::Delete { slot: number },
        sys::ACTION_OWN_PUT => Action::OwnPut { contact: number, message: msgno },
        kind => panic!("an action of kind {kind}"),
    }
}

fn window_row(row: &[u8; sys::KEY_ROW]) -> (Dir, u8, u32) {
    let key = sys::KeyRow::read(row);
    (Dir::of(key.direction).expect("a direction"), key.generation, key.index)
}

fn held(row: &sys::Row, blob: &[u8]) -> Option<Held> {
    match row.kind {
        sys::KIND_CARRIED => Some(Held::Carried {
            depositor: row.depositor,
            envelope: Envelope {
                tag: row.tag,
                commitment: row.second,
                expiry: row.expiry_min,
                copies: row.copies,
                ciphertext: blob[sys::CARRIED_HEAD..].into(),
            },
        }),
        sys::KIND_TOMBSTONE => Some(Held::Tombstone { tag: row.tag, secret: row.second, expiry: row.expiry_min }),
        _ => None,
    }
}

fn own_row(library: &Library, row: &[u8; sys::OWN_ROW]) -> OwnRow {
    let row = sys::OwnRow::read(row);
    OwnRow {
        contact: row.contact,
        message: row.msgno,
        tag: row.tag,
        secret: row.secret,
        expiry: row.expiry,
        copies: row.copies,
        renewed: row.renewed,
        ciphertext: ciphertext(library, row.cell),
    }
}

/// For how many rows the tombstones were searched: of an inventory, which has it as its length.
fn searched(call: &Call, said: &sys::Answer) -> usize {
    match call {
        Call::Inventory { .. } => said.length,
        _ => 0,
    }
}

impl Library {
    fn done(&self, call: &Call, said: &sys::Answer) -> Answer {
        match call {
            Call::InventoryOfOurs { .. } => Answer::Listed(rows(&self.answer, said.length).copied().collect()),
            Call::Window { .. } => Answer::Window(rows(&self.answer, said.length).map(window_row).collect()),
            Call::RowBlob { .. } => Answer::Blob(Some(self.answer[..said.length].into())),
            Call::Save { .. } => Answer::Saved(self.answer[..said.length].into()),
            Call::Page { .. } => Answer::Page(Screen(self.answer[..said.length].into())),
            Call::OwnEnvelope(_) => Answer::Own(own_row(self, &self.own_row)),
            _ => Answer::Done {
                malformed: said.said == sys::MALFORMED,
                replies: rows(&self.lent.replies, said.replies).map(|row| reply(self, row)).collect(),
                actions: rows(&self.lent.actions, said.actions).map(action).collect(),
                searched: searched(call, said),
            },
        }
    }

    pub fn own_rows(&self) -> Vec<OwnRow> {
        let tables = &self.lent.tables;
        let count = u64::from_be_bytes(array(&tables.device, 20)) as usize;
        rows(&tables.own, count).map(|row| own_row(self, row)).collect()
    }

    pub fn answer(&self, call: &Call, said: &Said) -> Answer {
        match (call, said) {
            (Call::RowRead { blob }, Said::Row(row)) => Answer::Row(held(row, blob)),
            (_, Said::Row(_)) => panic!("a row was read by {:?}", call.kind()),
            (_, Said::Answer(answer)) => match answer.said {
                sys::DONE | sys::MALFORMED => self.done(call, answer),
                sys::OURS => Answer::Ours { contact: answer.contact, generation: answer.generation, index: answer.idx },
                sys::MISSING => Answer::Blob(None),
                sys::NO_ENVELOPE => Answer::NoEnvelope,
                number => Answer::Refused(number),
            },
        }
    }
}

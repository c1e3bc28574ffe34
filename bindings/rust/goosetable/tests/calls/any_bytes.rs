//! Areas that no call left: every call answers, and every answer lies within the post's areas.

use super::*;

/// Numbers that look random: a linear congruential generator.
pub struct Noise(pub u64);

impl Noise {
    pub fn next(&mut self) -> u64 {
        self.0 = self
            .0
            .wrapping_mul(6364136223846793005)
            .wrapping_add(1442695040888963407);
        self.0 >> 33
    }

    /// Bytes that mostly count as small numbers, so that rows name cells, slots and tags that are there.
    fn fill(&mut self, area: &mut [u8]) {
        for byte in area {
            let noise = self.next();
            *byte = match noise % 4 {
                0 => (noise >> 8) as u8,
                1 => 0xff,
                _ => (noise >> 16 & 1) as u8,
            };
        }
    }

    fn bytes(&mut self, len: usize) -> Box<[u8]> {
        let mut area = vec![0; len];
        self.fill(&mut area);
        area.into_boxed_slice()
    }

    /// Areas of any bytes and of odd lengths, in which contact 5 is known.
    fn areas(&mut self) -> Areas {
        let mut areas = Areas::fresh(SIZES).unwrap();
        self.fill(&mut areas.device);
        self.fill(&mut *areas.contacts);
        self.fill(&mut *areas.own);
        self.fill(&mut *areas.carried);
        areas.contacts[..9].copy_from_slice(&[0, 0, 0, 0, 0, 0, 0, 5, 1]);
        areas.tombstones = self.bytes(1000);
        areas.bad_tags = self.bytes(100);
        areas.own_cells = self.bytes(2 * CELL + 7);
        areas.carried_cells = self.bytes(3 * CELL - 9);
        areas
    }
}

/// Is a ciphertext a part of one of the post's cells?
fn lies_within(areas: &Areas, ciphertext: &[u8]) -> bool {
    let part = ciphertext.as_ptr_range();
    ciphertext.is_empty()
        || [&areas.own_cells, &areas.carried_cells]
            .iter()
            .map(|cells| cells.as_ptr_range())
            .any(|cells| cells.start <= part.start && part.end <= cells.end)
}

/// Reads every reply of a whole meeting; answers how many envelopes brought bytes.
fn offers(post: &mut Post) -> usize {
    let mut exchange = Exchange::closed();
    post.fresh_exchange(&mut exchange, VERIFIED).unwrap();
    let record = post.inventory(&mut exchange, VERIFIED, &Window::EMPTY, &[]);
    let Record::Taken(replies) = record.unwrap() else {
        panic!("malformed");
    };
    let areas = replies.post().areas();
    replies
        .filter(|reply| match reply {
            Reply::Envelope(envelope) => {
                assert!(lies_within(areas, envelope.ciphertext));
                !envelope.ciphertext.is_empty()
            }
            _ => false,
        })
        .count()
}

/// Gives every tombstone the tag of a row, of an own one and a carried one in turn.
fn entomb(areas: &mut Areas) {
    for (i, tombstone) in areas.tombstones.chunks_exact_mut(44).enumerate() {
        let tag = match i % 2 {
            0 => &areas.own[54 * i + 12..][..16],
            _ => &areas.carried[57 * i + 16..][..16],
        };
        tombstone[8..24].copy_from_slice(tag);
    }
}

/// How many envelopes a peer is offered that listed some prefixes, and for how many rows the tombstones were searched.
fn counted(areas: &Areas, prefixes: &[Prefix]) -> (usize, usize) {
    let mut post = Post::over(areas.clone()).unwrap();
    let mut exchange = Exchange::closed();
    post.fresh_exchange(&mut exchange, VERIFIED).unwrap();
    let mut list = |prefixes: &[Prefix]| match post
        .inventory(&mut exchange, VERIFIED, &Window::EMPTY, prefixes)
        .unwrap()
    {
        Record::Taken(replies) => {
            let searched = replies.searched();
            let is_offer = |reply: &Reply<'_>| matches!(reply, Reply::Envelope(_));
            (replies.filter(is_offer).count(), searched)
        }
        Record::Malformed => panic!("malformed"),
    };
    assert_eq!(list(prefixes), (0, 0));
    list(&[])
}

#[test]
fn the_count_on_any_bytes_is_what_is_offered_without_tombstones() {
    let mut noise = Noise(8);
    let (mut offers, mut rows) = (0, 0);
    for _ in 0..40 {
        let mut areas = noise.areas();
        entomb(&mut areas);
        let post = Post::over(areas.clone()).unwrap();
        let listed: Vec<_> = post
            .carried()
            .step_by(3)
            .map(|row| row.envelope.header.tag.prefix())
            .collect();
        let (offered, searched) = counted(&areas, &listed);
        areas.device[36..44].fill(0);
        assert_eq!(counted(&areas, &listed), (searched, searched));
        assert!(offered <= searched && searched <= MAX_LISTED);
        (offers, rows) = (offers + offered, rows + searched);
    }
    assert!(0 < offers && offers < rows, "{offers} {rows}");
}

/// Makes the calls that list actions; answers how many they listed.
fn changes(post: &mut Post) -> usize {
    let tag = post.own_rows().next().map_or(tag(1), |row| row.tag);
    let mut exchange = Exchange::closed();
    post.fresh_exchange(&mut exchange, VERIFIED).unwrap();
    let _ = post.inventory(&mut exchange, VERIFIED, &Window::EMPTY, &[]);
    let handed = post.custody_code(&mut exchange, VERIFIED, tag, Custody::Accepted);
    let mut count = handed.map_or(0, Actions::count);
    count += match post.envelope(VERIFIED, envelope(0x77, 4), &Window::EMPTY) {
        Ok(Received::Replied { actions, .. }) => actions.count(),
        _ => 0,
    };
    count += match post.tomb(VERIFIED, tag, SECRET) {
        Ok(Record::Taken(actions)) => actions.count(),
        _ => 0,
    };
    let opened = post.opened(VERIFIED, tag, SECRET, 90);
    count += opened.map_or(0, |opened| opened.actions.count());
    count + post.maintenance().unwrap().count()
}

/// Makes the calls that read, of every row; answers how many bytes they gave.
fn reads(post: &mut Post) -> usize {
    let mut blob = [0; BLOB];
    let mut prefixes = [[0; 8]; MAX_LISTED];
    let mut file = vec![0; post.file_size()];
    let mut count = post.save(&mut file).unwrap().len();
    count += post
        .inventory_of_ours(VERIFIED, &mut prefixes)
        .unwrap()
        .len();
    let tags: Vec<_> = post.own_rows().map(|row| row.tag).collect();
    for slot in [0, 1, 256, u64::MAX] {
        count += post.row_blob(Slot(slot), &mut blob).map_or(0, <[u8]>::len);
    }
    for tag in tags {
        if let Some(envelope) = post.fetch(VERIFIED, tag).unwrap() {
            assert!(envelope.ciphertext.len() <= CELL);
            count += envelope.ciphertext.len();
        }
    }
    count
}

#[test]
fn every_call_answers_on_any_bytes() {
    let mut noise = Noise(1);
    let (mut offered, mut changed, mut read) = (0, 0, 0);
    for _ in 0..40 {
        let mut post = Post::over(noise.areas()).unwrap();
        let (counts, sizes) = (post.counts(), post.areas().sizes());
        assert!(counts.contacts <= 256 && counts.own <= 256 && counts.carried <= 256);
        assert!(counts.tombstones <= sizes.tombstone_rows && counts.bad_tags <= sizes.bad_tag_rows);
        offered += offers(&mut post);
        read += reads(&mut post);
        let _ = post.load(&noise.bytes(200));
        let _ = post.failed(VERIFIED, tag(1));
        let _ = post.own_envelope(message(VERIFIED, 1, 7));
        let _ = post.stored_tombstone(tag(3), SECRET, 90);
        changed += changes(&mut post);
    }
    assert!(
        0 < offered && 0 < changed && 0 < read,
        "{offered} {changed} {read}"
    );
}

/// Any bytes with 256 own rows, so many rows for tombstones, and so many of these if a number is said; the secret of
/// the first carried row, which has tag 1, is known.
fn turning(noise: &mut Noise, rows: usize, said: Option<u64>) -> Post {
    let mut areas = noise.areas();
    areas.device[20..28].copy_from_slice(&256_u64.to_be_bytes());
    if let Some(said) = said {
        areas.device[36..44].copy_from_slice(&said.to_be_bytes());
    }
    areas.tombstones = noise.bytes(44 * rows + 7);
    areas.carried[16..32].copy_from_slice(&tag(1).0);
    areas.carried[32..48].copy_from_slice(&COMMITMENT.0);
    Post::over(areas).unwrap()
}

/// Is a call refused by 5?
fn meets_5<T>(answer: Result<T, Refusal>) -> bool {
    matches!(answer, Err(Refusal::NoTombstoneRow))
}

#[test]
fn in_1024_rows_of_any_bytes_a_row_turns_and_no_tombstone_meets_5() {
    let mut noise = Noise(9);
    for rows in [1024, 1025, 1100] {
        for said in [None; 10].into_iter().chain([Some(1023)]) {
            let mut post = turning(&mut noise, rows, said);
            let before = post.counts().tombstones;
            let turned = tomb(&mut post, tag(1), SECRET).unwrap();
            let goes = usize::from(before >= 1024);
            assert_eq!(turned.len(), 1 + goes);
            assert_eq!(post.counts().tombstones, before + 1 - goes);
            let own = post.own_rows().next().map(|row| (row.tag, row.secret));
            let (own, secret) = own.expect("an own row");
            let ended = post.tomb(VERIFIED, own, secret);
            assert!(matches!(ended, Ok(Record::Taken(_))), "{ended:?}");
            assert!(!meets_5(post.opened(VERIFIED, tag(3), SECRET, 90)));
            assert!(!meets_5(post.stored_tombstone(tag(4), SECRET, 90)));
        }
    }
}

/// Areas of one cell more than count, with an own row and a carried row that name these cells; and the own row's tag.
fn naming(own: u16, carried: u16) -> (Areas, Tag) {
    let most = Sizes {
        carried_cells: MAX_ROWS,
        own_cells: MAX_ROWS,
        ..SIZES
    };
    let mut post = sized(most);
    let row = post.own_envelope(message(UNVERIFIED, 1, 7));
    let own_tag = row.unwrap().unwrap().tag;
    carry(&mut post, UNVERIFIED, envelope(2, 4));
    let mut areas = post.into_areas();
    areas.own_cells = vec![0x0e; (MAX_ROWS + 1) * CELL].into();
    areas.carried_cells = vec![0xc7; (MAX_ROWS + 1) * CELL].into();
    areas.own[52..54].copy_from_slice(&own.to_be_bytes());
    areas.carried[55..57].copy_from_slice(&carried.to_be_bytes());
    (areas, own_tag)
}

/// The ciphertexts of the two rows, fetched and offered.
fn ciphertexts(own: u16, carried: u16) -> [Vec<u8>; 4] {
    let (areas, own_tag) = naming(own, carried);
    let mut post = Post::over(areas).unwrap();
    let listed = [
        post.own_ciphertext(UNVERIFIED, 1).unwrap().to_vec(),
        post.carried().next().unwrap().envelope.ciphertext.to_vec(),
    ];
    let fetched = [own_tag, tag(2)].map(|tag| {
        post.fetch(VERIFIED, tag)
            .unwrap()
            .unwrap()
            .ciphertext
            .to_vec()
    });
    let mut exchange = Exchange::closed();
    post.fresh_exchange(&mut exchange, VERIFIED).unwrap();
    let Record::Taken(replies) = post
        .inventory(&mut exchange, VERIFIED, &Window::EMPTY, &[])
        .unwrap()
    else {
        panic!("malformed");
    };
    let offered = replies.map(|reply| match reply {
        Reply::Envelope(envelope) => envelope.ciphertext.to_vec(),
        other => panic!("{other:?}"),
    });
    let all: Vec<_> = fetched.iter().cloned().chain(offered).collect();
    assert_eq!(listed, fetched);
    all.try_into().unwrap()
}

#[test]
fn a_row_of_a_cell_that_does_not_count_has_no_ciphertext() {
    let (own, carried, none) = (vec![0x0e; 80], vec![0xc7; 48], Vec::new());
    assert_eq!(
        ciphertexts(255, 255),
        [&own, &carried, &own, &carried].map(Vec::clone)
    );
    for cell in [256, 257, 65_279, 65_280, 65_535] {
        assert_eq!(
            ciphertexts(cell, 0),
            [&none, &carried, &none, &carried].map(Vec::clone)
        );
        assert_eq!(
            ciphertexts(0, cell),
            [&own, &none, &own, &none].map(Vec::clone)
        );
    }
}

/// The tables of a post: what each lists is as long as it says, and each ciphertext is the one that a fetch gives.
fn tables(post: &mut Post) -> usize {
    let counts = post.counts();
    assert_eq!(post.contacts().count(), counts.contacts);
    assert_eq!(post.own_rows().count(), counts.own);
    assert_eq!(post.carried().count(), counts.carried);
    assert_eq!(post.tombstones().count(), counts.tombstones);
    assert_eq!(post.bad_tags().count(), counts.bad_tags);
    assert_eq!(post.carried().len(), counts.carried);
    let areas = post.areas();
    assert!(
        post.carried()
            .all(|row| lies_within(areas, row.envelope.ciphertext))
    );
    let own: Vec<_> = post
        .own_rows()
        .filter(|row| row.contact != VERIFIED)
        .map(|row| row.tag)
        .collect();
    let carried: Vec<_> = post
        .carried()
        .map(|row| (row.envelope.header, row.envelope.ciphertext.to_vec()))
        .collect();
    let mut compared = 0;
    for (place, (header, ciphertext)) in carried.iter().enumerate() {
        let same = |(other, _): &(Header, Vec<u8>)| other.tag == header.tag;
        if own.contains(&header.tag) || carried[..place].iter().any(same) {
            continue;
        }
        let fetched = post.fetch(VERIFIED, header.tag).unwrap().unwrap();
        assert_eq!(
            (&fetched.header, fetched.ciphertext),
            (header, &ciphertext[..])
        );
        compared += ciphertext.len();
    }
    compared
}

#[test]
fn tables_of_any_bytes_are_listed() {
    let mut noise = Noise(2);
    let mut compared = 0;
    for _ in 0..40 {
        let mut post = Post::over(noise.areas()).unwrap();
        compared += tables(&mut post);
    }
    assert!(0 < compared);
}

#[test]
fn a_count_above_what_fits_is_what_fits() {
    let mut areas = Areas::fresh(SIZES).unwrap();
    areas.device[12..52].fill(0xff);
    let mut post = Post::over(areas).unwrap();
    assert_eq!(
        [
            post.contacts().len(),
            post.own_rows().len(),
            post.carried().len(),
            post.tombstones().len(),
            post.bad_tags().len(),
        ],
        [256, 256, 256, SIZES.tombstone_rows, SIZES.bad_tag_rows]
    );
    assert_eq!(post.tombstones().last().unwrap().tag, tag(0));
    let mut row = [0; OwnRow::SIZE];
    row[51] = 48;
    for (message, number) in [(0, 10), (1, 4)] {
        row[11] = message;
        let row = OwnRow::from_bytes(&row);
        let restored = |post: &mut Post| post.restore_own_row(row, &[0; 48]);
        assert_eq!(refused(&mut post, restored), number);
    }
}

#[test]
fn an_own_row_is_restored_in_any_bytes_or_refused() {
    let mut noise = Noise(3);
    let mut source = post();
    let row = source.own_envelope(message(VERIFIED, 1, 7)).unwrap();
    let mut restored = 0;
    for _ in 0..40 {
        let mut areas = noise.areas();
        areas.device[20..28].copy_from_slice(&(noise.next() % 4).to_be_bytes());
        let mut post = Post::over(areas).unwrap();
        let before = post.counts().own;
        match post.restore_own_row(row.unwrap(), &[0x0e; 80]) {
            Ok(()) => {
                restored += 1;
                assert_eq!(post.counts().own, before + 1);
                assert_eq!(post.own_ciphertext(VERIFIED, 1), Some(&[0x0e; 80][..]));
            }
            Err(refusal) => assert_eq!(refusal, Refusal::NoCell),
        }
    }
    assert!(0 < restored);
}

#[test]
fn blobs_and_records_of_any_bytes_are_read_or_none() {
    let mut noise = Noise(6);
    let (mut rows, mut records) = (0, 0);
    for len in (0..200).chain([BLOB, BLOB + 1]) {
        let bytes = noise.bytes(len);
        for kind in 0..=4 {
            let Some(reply) = Reply::from_bytes(kind, &bytes) else {
                continue;
            };
            assert_eq!((reply.kind(), &*reply.to_bytes()), (kind, &*bytes));
            records += 1;
        }
        for first in [0, 1] {
            let mut blob = bytes.clone();
            blob.iter_mut().take(1).for_each(|byte| *byte = first);
            rows += usize::from(row_read(&blob).is_some());
        }
    }
    assert!(0 < rows && 0 < records, "{rows} {records}");
}

/// The held rows as a page begins each, merged: the lesser slot of both tables' next rows, the carried row of equal ones.
fn merged(post: &Post) -> Vec<String> {
    let begun =
        |slot: Slot, kind, tag: Tag| format!("{:>20} {kind} {}", slot.0, &tag.to_string()[..16]);
    let mut carried = post.carried().peekable();
    let mut tombstones = post.tombstones().peekable();
    let mut rows = Vec::new();
    loop {
        let tombstone = tombstones.next_if(|row| carried.peek().is_none_or(|c| row.slot < c.slot));
        rows.push(match tombstone {
            Some(row) => begun(row.slot, 'T', row.tag),
            None => match carried.next() {
                Some(row) => begun(row.slot, 'C', row.envelope.header.tag),
                None => return rows,
            },
        });
    }
}

#[test]
fn each_held_row_of_any_bytes_stands_on_one_page() {
    let mut noise = Noise(7);
    let mut area = [0; PAGE];
    let mut shown = 0;
    for _ in 0..40 {
        let post = Post::over(noise.areas()).unwrap();
        let mut rows = Vec::new();
        for number in 0..post.pages() {
            let page = post.page(number, &mut area);
            assert!(page.lines().all(|line| line.len() == 80) && page.ends_with('\n'));
            let before = rows.len();
            rows.extend(page.lines().skip(1).map(|row| row[..39].to_owned()));
            assert!(rows.len() - before == PAGE_ROWS || number + 1 == post.pages());
        }
        assert_eq!(rows, merged(&post));
        shown += rows.len();
    }
    assert!(0 < shown);
}

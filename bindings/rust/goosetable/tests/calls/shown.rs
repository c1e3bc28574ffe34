//! What values say of themselves.

use super::*;

const TAG_HEX: &str = "11111111111111111111111111111111";
const COMMITMENT_HEX: &str = "b18dc87badb0d06effa11037d4d760af";

fn shown_envelope() -> String {
    format!(
        "Envelope {{ header: Header {{ tag: Tag({TAG_HEX}), commitment: Commitment({COMMITMENT_HEX}), \
         expiry_min: 100, copies: 2 }}, ciphertext: 48 bytes }}"
    )
}

#[test]
fn tags_and_codes_are_words() {
    assert_eq!(tag(0x11).to_string(), TAG_HEX);
    assert_eq!(format!("{:?}", tag(0x11)), format!("Tag({TAG_HEX})"));
    assert_eq!(format!("{COMMITMENT}"), COMMITMENT_HEX);
    assert_eq!(SECRET.to_string(), "33".repeat(16));
    let words: Vec<_> = (0..=4)
        .map(|code| Custody::from_code(code).unwrap().to_string())
        .collect();
    assert_eq!(words, ["Accepted", "Full", "Duplicate", "Off", "Invalid"]);
    assert_eq!(format!("{VERIFIED} {}", Slot(7)), "5 7");
    assert_eq!(
        format!("{}{}", Direction::Initiator, Direction::Responder),
        "IR"
    );
}

#[test]
fn refusals_have_document_01s_words() {
    let said: Vec<_> = Refusal::ALL.iter().map(Refusal::to_string).collect();
    for (number, words) in [
        (1, "area is too short"),
        (2, "the contact, or one in a window row, isn't known"),
        (3, "the exchange was opened for another contact or for none"),
        (4, "a row would be added and its cells are all used"),
        (
            5,
            "a tombstone would be added and, after any deletion, all R rows are used",
        ),
        (6, "a new slot is needed and next slot is 2^64−1"),
        (7, "configuration outside its range"),
        (
            8,
            "slot twice or not below next slot, carried tag twice, unknown depositor",
        ),
        (9, "a new bad tag and no row left"),
        (10, "own row: message number already there"),
        (
            11,
            "own ciphertext less 16 isn't 32, 64, 128, 256, 512, 1024, 2048 or 4048",
        ),
        (
            12,
            "a direction not I or R; keys not rising; over 500 skipped; a next above 2^32",
        ),
        (13, "a 257th contact"),
    ] {
        let shown: &str = &said[number - 1];
        assert!(shown.starts_with(&format!("refused {number}: ")), "{shown}");
        assert!(shown.ends_with(words) || shown.contains(words), "{shown}");
    }
}

#[test]
fn debug_of_answers_can_be_read() {
    let mut post = post();
    let said = post.envelope(VERIFIED, envelope(0x11, 4), &Window::EMPTY);
    assert_eq!(
        format!("{:?}", said.unwrap()),
        "Replied { code: Accepted, actions: [Put(Slot(0))] }"
    );
    let mut exchange = Exchange::closed();
    post.fresh_exchange(&mut exchange, UNVERIFIED).unwrap();
    let said = post.inventory(&mut exchange, UNVERIFIED, &Window::EMPTY, &[]);
    assert_eq!(
        format!("{:?}", said.unwrap()),
        format!("Taken([Envelope({})])", shown_envelope())
    );
    let opened = post.opened(VERIFIED, tag(0x11), SECRET, 90).unwrap();
    assert_eq!(
        format!("{opened:?}"),
        format!(
            "Opened {{ replies: [Tomb {{ tag: Tag({TAG_HEX}), secret: Secret(..) }}], actions: [Put(Slot(1))] }}"
        )
    );
    let row = format!("{:?}", post.carried().next().unwrap());
    assert!(row.ends_with("ciphertext: 48 bytes } }"), "{row}");
}

#[test]
fn debug_of_a_long_list_is_short() {
    let mut post = sized(Sizes {
        carried_cells: 256,
        ..SIZES
    });
    for byte in 0..32 {
        let mut long = envelope(byte, 4);
        long.ciphertext = &[0; 2064];
        carry(&mut post, VERIFIED, long);
    }
    let mut exchange = Exchange::closed();
    post.fresh_exchange(&mut exchange, UNVERIFIED).unwrap();
    let said = post.inventory(&mut exchange, UNVERIFIED, &Window::EMPTY, &[]);
    let shown = format!("{:?}", said.unwrap());
    assert!(shown.ends_with(", and 16 more])"), "{shown}");
    assert!(shown.len() < 4000, "{} bytes", shown.len());
    post.set_clock(100 * 60);
    let shown = format!("{:?}", post.maintenance().unwrap());
    assert!(shown.ends_with("Delete(Slot(15)), and 16 more]"), "{shown}");
}

#[test]
fn debug_gives_no_key_and_no_secret_away() {
    let mut post = post();
    let message = message(VERIFIED, 1, 7);
    let row = post.own_envelope(message).unwrap().unwrap();
    let shown = format!(
        "{message:?} {row:?} {:?} {post:?} {:?}",
        SECRET,
        post.areas()
    );
    assert!(shown.contains("ciphertext: 80 bytes"), "{shown}");
    for hidden in ["4444", "68, 68", "3333", "51, 51"] {
        assert!(!shown.contains(hidden), "{hidden} in {shown}");
    }
}

#[test]
fn a_header_has_37_bytes_on_the_link() {
    let sealed = envelope(0x11, 9);
    let mut record = sealed.header.to_bytes().to_vec();
    let expected = [&[0x11; 16][..], &COMMITMENT.0, &[0, 0, 0, 100, 9]].concat();
    assert_eq!(record, expected);
    record.extend(sealed.ciphertext);
    assert_eq!(sealed.to_bytes(), record);
    assert_eq!(Envelope::from_bytes(&record), Some(sealed));
    assert_eq!(
        Envelope::from_bytes(&record[..37]).unwrap().ciphertext,
        [0; 0]
    );
    assert_eq!(Envelope::from_bytes(&record[..36]), None);
}

#[test]
fn replies_are_records_on_the_link() {
    let (tag, secret) = (tag(0x11), SECRET);
    let sealed = envelope(0x11, 9);
    let code = Custody::Off;
    for (kind, reply, bytes) in [
        (0, Reply::Fetch(tag), vec![0x11; 16]),
        (1, Reply::Envelope(sealed), sealed.to_bytes()),
        (
            2,
            Reply::Custody { tag, code },
            [&[0x11; 16][..], &[3]].concat(),
        ),
        (
            3,
            Reply::Tomb { tag, secret },
            [[0x11; 16], [0x33; 16]].concat(),
        ),
    ] {
        assert_eq!((reply.kind(), reply.to_bytes()), (kind, bytes.clone()));
        assert_eq!(Reply::from_bytes(kind, &bytes), Some(reply));
        assert_eq!(Reply::from_bytes(kind + 4, &bytes), None);
    }
    for (kind, length) in [
        (0, 15),
        (0, 17),
        (1, 36),
        (2, 16),
        (2, 18),
        (3, 31),
        (3, 33),
    ] {
        assert_eq!(Reply::from_bytes(kind, &vec![0; length]), None);
    }
    let unknown = [&[0x11; 16][..], &[5]].concat();
    assert_eq!(Reply::from_bytes(2, &unknown), None);
}

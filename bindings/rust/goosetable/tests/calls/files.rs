//! Row blobs, and saving and loading.

use super::*;

pub(super) fn file_of(post: &Post) -> Vec<u8> {
    let mut area = vec![0; post.file_size()];
    post.save(&mut area).unwrap().to_vec()
}

/// A post with a carried row in slot 0 and a tombstone in slot 1.
fn two_rows() -> Post {
    let mut post = post();
    carry(&mut post, VERIFIED, envelope(1, 4));
    let _ = post.stored_tombstone(tag(2), SECRET, 90).unwrap();
    post
}

#[test]
fn the_file_has_the_next_slot_and_each_row() {
    let mut expected = b"HN\0\0\0\0\0\0\0\x02".to_vec();
    expected.extend(b"HC\0\0\0\0\0\0\0\0\0\x5e");
    let mut blob = [0; BLOB];
    let post = two_rows();
    expected.extend(post.row_blob(Slot(0), &mut blob).unwrap());
    expected.extend(b"HT\0\0\0\0\0\0\0\x01\0\x25");
    expected.extend(post.row_blob(Slot(1), &mut blob).unwrap());
    assert_eq!(file_of(&post), expected);
    assert_eq!(post.row_blob(Slot(2), &mut blob), None);
}

#[test]
fn a_loaded_post_holds_what_was_saved() {
    let saved = two_rows();
    let mut loaded = post();
    carry(&mut loaded, VERIFIED, envelope(7, 4));
    loaded.load(&file_of(&saved)).unwrap();
    assert_eq!(loaded.counts(), saved.counts());
    assert_eq!(loaded.next_slot(), Slot(2));
    assert_eq!(carried(&loaded, Slot(0)), carried(&saved, Slot(0)));
    assert_eq!(tombstone(&loaded, Slot(1)), (tag(2), SECRET, 90));
    assert_eq!(file_of(&loaded), file_of(&saved));
    let fetched = loaded.fetch(UNVERIFIED, tag(1)).unwrap();
    assert_eq!(fetched, Some(envelope(1, 4)));
}

#[test]
fn a_short_file_area_meets_1() {
    let post = post();
    assert_eq!(post.file_size(), 10 + 2122 * 40 + 49 * 8);
    let mut short = vec![0; post.file_size() - 1];
    assert_eq!(post.save(&mut short), Err(Refusal::ShortArea));
}

#[test]
fn a_wrong_file_meets_8() {
    let good = file_of(&two_rows());
    let mut post = post();
    let mut refuses = |file: &[u8]| assert_eq!(refused(&mut post, |post| post.load(file)), 8);
    refuses(b"");
    refuses(&good[..good.len() - 1]);
    refuses(&good[10..]);
    for (place, byte) in [(0, b'X'), (9, 1), (11, b'T'), (21, 0x5d)] {
        let mut wrong = good.clone();
        wrong[place] = byte;
        refuses(&wrong);
    }
    let twice = [&good, &good[10..]].concat();
    refuses(&twice);
    let mut stranger = Post::new(SIZES).unwrap();
    assert_eq!(refused(&mut stranger, |post| post.load(&good)), 8);
}

#[test]
fn too_few_cells_meet_4_and_too_few_rows_5() {
    let file = file_of(&two_rows());
    for (carried_cells, tombstone_rows, number) in [(0, 0, 4), (1, 0, 5)] {
        let mut small = sized(Sizes {
            carried_cells,
            tombstone_rows,
            ..SIZES
        });
        assert_eq!(refused(&mut small, |post| post.load(&file)), number);
    }
}

/// Where the record of a carried row, the first of a file, has its expiry, and behind it its copies.
const EXPIRY: usize = 10 + 12 + 41;

#[test]
fn a_carried_row_of_any_copies_is_read_and_loaded() {
    let mut file = file_of(&two_rows());
    let mut post = post();
    for copies in 0..=255 {
        file[EXPIRY + 4] = copies;
        post.load(&file).unwrap();
        assert_eq!(carried(&post, Slot(0)).0, envelope(1, copies).header);
        assert_eq!(file_of(&post), file);
        let kept = SavedFile::from_bytes(&file).unwrap();
        assert_eq!(kept.as_bytes(), file, "as it is");
    }
}

#[test]
fn a_carried_row_of_expiry_0_is_not_read_and_its_file_meets_8() {
    let [mut blob, mut tombstone] = two_blobs();
    blob[41..45].fill(0);
    tombstone[33..37].fill(0);
    let mut file = file_of(&two_rows());
    file[EXPIRY..][..4].fill(0);
    for copies in [0, 1, 4] {
        blob[45] = copies;
        assert_eq!(row_read(&blob), None);
        assert_eq!(SavedFile::new().push(Slot(0), &blob).map_err(drop), Err(()));
        file[EXPIRY + 4] = copies;
        assert_eq!(refused(&mut post(), |post| post.load(&file)), 8);
    }
    assert!(row_read(&tombstone).is_some(), "a tombstone's is any");
}

#[test]
fn an_envelope_that_comes_without_copies_is_invalid() {
    let mut file = file_of(&two_rows());
    file[EXPIRY + 4] = 0;
    let mut post = post();
    post.load(&file).unwrap();
    for byte in [1, 2, 3] {
        let said = code(&mut post, VERIFIED, envelope(byte, 0));
        assert_eq!(said, Custody::Invalid, "carried, tombstoned or new");
    }
}

#[test]
fn a_file_of_stored_rows_is_the_saved_one() {
    let post = two_rows();
    let mut file = SavedFile::new();
    assert_eq!(
        (file.as_bytes(), file.next_slot()),
        (&b"HN\0\0\0\0\0\0\0\0"[..], Slot(0))
    );
    let mut blob = [0; BLOB];
    for slot in [Slot(0), Slot(1)] {
        file.push(slot, post.row_blob(slot, &mut blob).unwrap())
            .unwrap();
    }
    assert_eq!(file.as_bytes(), file_of(&post));
    assert_eq!(SavedFile::from_bytes(file.as_bytes()), Some(file.clone()));
    file.set_next_slot(Slot(1));
    assert_eq!(file.next_slot(), Slot(2));
    file.set_next_slot(Slot(9));
    let mut loaded = self::post();
    loaded.load(file.as_bytes()).unwrap();
    assert_eq!((loaded.next_slot(), loaded.counts().carried), (Slot(9), 1));
}

#[test]
fn a_damaged_row_is_left_out() {
    let post = two_rows();
    let mut blob = [0; BLOB];
    let good = post.row_blob(Slot(0), &mut blob).unwrap().to_vec();
    let mut file = SavedFile::new();
    for damaged in [&good[..93], &good[1..], &[0; 94], &[]] {
        let error = file.push(Slot(7), damaged).unwrap_err();
        assert_eq!(error.to_string(), "the blob is of no held row");
    }
    assert_eq!(file.as_bytes(), b"HN\0\0\0\0\0\0\0\x08", "its slot is kept");
    assert_eq!(SavedFile::from_bytes(b"HX\0\0\0\0\0\0\0\0"), None);
    assert_eq!(SavedFile::from_bytes(b"HN\0\0\0\0\0\0\0"), None);
    for wrong in [&file_of(&post)[..30], b"HN\0\0\0\0\0\0\0\x02HC\0"] {
        let kept = SavedFile::from_bytes(wrong).unwrap();
        assert_eq!(kept.as_bytes(), wrong, "a load refuses it");
    }
}

#[test]
fn bytes_that_are_no_row_are_none() {
    for blob in [&b""[..], &[0; 94], &[1; 36], &[0xff; 2110], &[0; 2111]] {
        assert_eq!(row_read(blob), None);
    }
}

#[test]
#[allow(deprecated)]
fn a_stored_row_is_the_row_that_is_read() {
    let [mut carried, tombstone] = two_blobs();
    for copies in [0, 4] {
        carried[45] = copies;
        for blob in [&carried, &tombstone] {
            assert!(row_read(blob).is_some());
            assert_eq!(stored_row(blob), row_read(blob));
        }
    }
    assert_eq!(stored_row(&[0; 94]), None);
}

/// The blobs of a carried row and a tombstone.
fn two_blobs() -> [Vec<u8>; 2] {
    let post = two_rows();
    let mut area = [0; BLOB];
    [Slot(0), Slot(1)].map(|slot| post.row_blob(slot, &mut area).unwrap().to_vec())
}

/// The blob of a carried row with another tag and depositor.
fn carried_blob(byte: u8, depositor: ContactId) -> Vec<u8> {
    let [mut blob, _] = two_blobs();
    blob[1..9].copy_from_slice(&depositor.0.to_be_bytes());
    blob[9..25].copy_from_slice(&[byte; 16]);
    blob
}

#[test]
fn the_slot_of_a_damaged_row_is_not_given_again() {
    let [good, tombstone] = two_blobs();
    let mut file = SavedFile::new();
    file.push(Slot(4), &good).unwrap();
    file.push(Slot(300), &tombstone[1..]).unwrap_err();
    assert_eq!(file.next_slot(), Slot(301));
    let mut post = post();
    assert_eq!(file.load_good(&mut post), Ok(vec![]));
    assert_eq!(post.next_slot(), Slot(301));
    assert_eq!(carry(&mut post, VERIFIED, envelope(9, 2)), Slot(301));
}

#[test]
fn what_is_good_is_loaded_and_the_rest_is_told() {
    let [_, tombstone] = two_blobs();
    let stored = [
        (1, carried_blob(1, VERIFIED)),
        (2, carried_blob(2, STRANGER)),
        (3, carried_blob(1, UNVERIFIED)),
        (3, tombstone.clone()),
        (5, carried_blob(5, UNVERIFIED)),
        (5, carried_blob(6, UNVERIFIED)),
        (7, carried_blob(7, STRANGER)),
    ];
    let mut file = SavedFile::new();
    for (slot, blob) in &stored {
        file.push(Slot(*slot), blob).unwrap();
    }
    let mut post = post();
    carry(&mut post, VERIFIED, envelope(9, 2));
    assert_eq!(refused(&mut post, |post| post.load(file.as_bytes())), 8);
    let wrong = [2, 3, 5, 7].map(|slot| (Slot(slot), Refusal::SavedFile));
    assert_eq!(file.load_good(&mut post), Ok(wrong.to_vec()));
    let slots: Vec<_> = post.carried().map(|row| row.slot).collect();
    assert_eq!(slots, [Slot(1), Slot(5)]);
    assert_eq!(post.tombstone_of(tag(2)).unwrap().slot, Slot(3));
    assert_eq!(post.next_slot(), Slot(8), "above what was left out");
    assert_eq!(post.carried_of(tag(5)).unwrap().depositor, UNVERIFIED);
}

#[test]
fn rows_that_do_not_fit_are_told_with_4_and_5() {
    let [_, tombstone] = two_blobs();
    let mut file = SavedFile::new();
    for slot in 0..3 {
        file.push(Slot(slot), &carried_blob(slot as u8, VERIFIED))
            .unwrap();
    }
    for slot in 3..6 {
        file.push(Slot(slot), &tombstone).unwrap();
    }
    let mut small = sized(Sizes {
        carried_cells: 2,
        tombstone_rows: 2,
        ..SIZES
    });
    let left_out = [
        (Slot(2), Refusal::NoCell),
        (Slot(5), Refusal::NoTombstoneRow),
    ];
    assert_eq!(file.load_good(&mut small), Ok(left_out.to_vec()));
    assert_eq!((small.counts().carried, small.counts().tombstones), (2, 2));
}

#[test]
fn a_whole_file_is_loaded_as_it_is_and_a_cut_one_not_at_all() {
    let saved = two_rows();
    let file = file_of(&saved);
    let mut loaded = post();
    let whole = SavedFile::from_bytes(&file).unwrap();
    assert_eq!(whole.load_good(&mut loaded), Ok(vec![]));
    assert_eq!(file_of(&loaded), file);
    for cut in [11, 21, 22, file.len() - 1] {
        let cut = SavedFile::from_bytes(&file[..cut]).unwrap();
        assert_eq!(refused(&mut loaded, |post| cut.load_good(post)), 8);
    }
    let mut behind = file;
    behind[9] = 1;
    let behind = SavedFile::from_bytes(&behind).unwrap();
    assert_eq!(refused(&mut loaded, |post| post.load(behind.as_bytes())), 8);
    let left_out = vec![(Slot(1), Refusal::SavedFile)];
    assert_eq!(behind.load_good(&mut loaded), Ok(left_out));
    assert_eq!((loaded.next_slot(), loaded.counts().carried), (Slot(1), 1));
}

#[test]
fn stored_areas_are_the_post_again() {
    let mut post = two_rows();
    post.own_envelope(message(VERIFIED, 1, 7)).unwrap();
    let again = Post::over(post.areas().clone()).unwrap();
    assert_eq!(again.counts(), post.counts());
    assert_eq!((again.clock(), again.next_slot()), (600, Slot(2)));
    assert_eq!(again.own_row(VERIFIED, 1), post.own_row(VERIFIED, 1));
    assert_eq!(carried(&again, Slot(0)), carried(&post, Slot(0)));
    assert!(again.into_areas() == post.into_areas());
}

#[test]
fn with_any_byte_flipped_each_row_is_loaded_or_told() {
    let good = file_of(&two_rows());
    let (mut told, mut refused) = (0, 0);
    for at in 0..good.len() {
        let mut wrong = good.clone();
        wrong[at] ^= 0xff;
        let Some(file) = SavedFile::from_bytes(&wrong) else {
            assert!(at < 2, "byte {at}");
            continue;
        };
        let mut post = post();
        let loaded = file.load_good(&mut post);
        let rows = post.counts().carried + post.counts().tombstones;
        match loaded {
            Ok(left_out) => {
                assert_eq!(left_out.len() + rows, 2, "byte {at}");
                told += left_out.len();
            }
            Err(refusal) => {
                assert_eq!((refusal, rows), (Refusal::SavedFile, 0), "byte {at}");
                refused += 1;
            }
        }
    }
    assert!(0 < told && 0 < refused, "{told} {refused}");
}

//! What is computed from keys. The expected bytes were computed with another implementation of HMAC and SHA-384.

use super::*;

#[test]
fn route_tags() {
    let at = |direction, generation, index| MessageKey {
        direction,
        generation,
        index,
    };
    for (key, expected) in [
        (
            at(Direction::Initiator, 0, 7),
            "efd3bf2fdce2687e3e22dc39bb537096",
        ),
        (
            at(Direction::Responder, 2, 300),
            "3983454dd7735186fb58ffca8c215949",
        ),
        (
            at(Direction::Responder, 255, u32::MAX),
            "b092723ca15e92e65d7791bf002aeaac",
        ),
    ] {
        assert_eq!(route_tag(&ROUTE_KEY, key).to_string(), expected);
    }
}

#[test]
fn the_secret_of_a_message_key() {
    let key = std::array::from_fn(|place| place as u8);
    assert_eq!(
        delivered(&key).to_string(),
        "02cd34074b6b7bb28c9d8f6bd2159b2d"
    );
}

#[test]
fn the_commitment_of_a_secret() {
    assert_eq!(commitment(SECRET), COMMITMENT);
}

#[test]
fn the_library_is_of_this_version() {
    assert_eq!(library_version(), 207);
}

//! Stand-ins for the host's own crypto.

use goosetable::MessageKey;

/// The route key that sender and phone share.
pub const ROUTE_KEY: [u8; 32] = [0x0a; 32];

/// Bytes of a ciphertext for a message of up to 64 bytes.
const SEALED: usize = 64 + 16;

/// The key that a message is sealed with: here it is made of its place, where a host has chains.
pub fn message_key(key: MessageKey) -> [u8; 32] {
    let mut bytes = [key.direction.label(); 32];
    bytes[..4].copy_from_slice(&key.index.to_be_bytes());
    bytes
}

/// Seals a message: here it is a part of the key and the text, in the clear.
pub fn seal(key: &[u8; 32], text: &str) -> [u8; SEALED] {
    let mut sealed = [0; SEALED];
    let message = key[..16].iter().chain(text.as_bytes());
    sealed
        .iter_mut()
        .zip(message)
        .for_each(|(to, from)| *to = *from);
    sealed
}

/// Opens a message: its text, if it was sealed with the key.
pub fn open<'a>(key: &[u8; 32], sealed: &'a [u8]) -> Option<&'a str> {
    let text = sealed.strip_prefix(&key[..16])?;
    let text = str::from_utf8(text).ok()?;
    Some(text.trim_end_matches('\0'))
}

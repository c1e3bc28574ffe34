//! What is computed from keys.

use crate::{Commitment, MessageKey, Secret, Tag, calls};

/// The route tag of a message: the tag that its envelope has. The route key is the one that the host shares with
/// the contact.
pub fn route_tag(route_key: &[u8; 32], key: MessageKey) -> Tag {
    calls::route_tag(route_key, key)
}

/// The secret that opening a message gives away, from the key that opened it: what [`Post::opened`](crate::Post::opened)
/// reports, and what [`OwnMessage::secret`](crate::OwnMessage::secret) is for the key that seals.
pub fn delivered(message_key: &[u8; 32]) -> Secret {
    calls::delivered(message_key)
}

/// The commitment of a secret, as envelopes have it. A host need not make it: own envelopes get theirs by themselves.
pub fn commitment(secret: Secret) -> Commitment {
    calls::commitment(&secret)
}

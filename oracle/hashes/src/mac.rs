use crate::{BLOCK, DIGEST, sha384};

/// A key longer than a block is replaced by its hash, a shorter one is filled with zeros (FIPS 198-1).
fn block_key(key: &[u8]) -> [u8; BLOCK] {
    let mut block = [0; BLOCK];
    if key.len() > BLOCK {
        block[..DIGEST].copy_from_slice(&sha384(key));
    } else {
        block[..key.len()].copy_from_slice(key);
    }
    block
}

pub fn hmac(key: &[u8], message: &[u8]) -> [u8; DIGEST] {
    let key = block_key(key);
    let mut inner: Vec<u8> = key.iter().map(|byte| byte ^ 0x36).collect();
    inner.extend_from_slice(message);
    let mut outer: Vec<u8> = key.iter().map(|byte| byte ^ 0x5c).collect();
    outer.extend_from_slice(&sha384(&inner));
    sha384(&outer)
}

/// Extract, then expand (RFC 5869). `None` above 255 digests.
/// An empty salt is a digest of zeros, which is the same key block as an empty key.
pub fn hkdf(ikm: &[u8], salt: &[u8], info: &[u8], length: usize) -> Option<Vec<u8>> {
    if length > 255 * DIGEST {
        return None;
    }
    let prk = hmac(salt, ikm);
    let mut output = Vec::with_capacity(length + DIGEST);
    let mut last: Vec<u8> = Vec::new();
    let mut counter = 0u8;
    while output.len() < length {
        counter += 1;
        last.extend_from_slice(info);
        last.push(counter);
        last = hmac(&prk, &last).to_vec();
        output.extend_from_slice(&last);
    }
    output.truncate(length);
    Some(output)
}

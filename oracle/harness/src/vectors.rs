//! Inputs and what the oracle's hashes give for them, one a line, for an independent implementation to go over.

use crate::generate::Rng;
use hashes::hex;
use reference::raw;

fn bytes(rng: &mut Rng, length: usize) -> Vec<u8> {
    (0..length).map(|_| rng.next() as u8).collect()
}

/// Empty bytes need a sign of their own on a line.
fn shown(bytes: &[u8]) -> String {
    if bytes.is_empty() { "-".into() } else { hex(bytes) }
}

fn hash_lines(rng: &mut Rng) {
    // Every length around the padding of one and two blocks, and a few long ones.
    for length in (0..=300).chain([511, 512, 1000, 4096, 100_000]) {
        let message = bytes(rng, length);
        println!("sha384 {} {}", shown(&message), hex(&hashes::sha384(&message)));
    }
}

fn mac_lines(rng: &mut Rng) {
    for key_length in [0, 1, 16, 32, 47, 48, 49, 127, 128, 129, 200] {
        for length in [0, 1, 50, 111, 112, 128, 300] {
            let (key, message) = (bytes(rng, key_length), bytes(rng, length));
            println!(
                "hmac {} {} {}",
                shown(&key),
                shown(&message),
                hex(&hashes::hmac(&key, &message))
            );
        }
    }
}

fn expand_lines(rng: &mut Rng) {
    for length in [0, 1, 16, 32, 47, 48, 49, 96, 97, 1000, 255 * 48] {
        for salt_length in [0, 48, 130] {
            let (ikm, salt, info) = (bytes(rng, 32), bytes(rng, salt_length), bytes(rng, 20));
            let output = hashes::hkdf(&ikm, &salt, &info, length).expect("not too long");
            println!(
                "hkdf {} {} {} {length} {}",
                shown(&ikm),
                shown(&salt),
                shown(&info),
                shown(&output)
            );
        }
    }
}

/// What the source makes of them: tags, commitments, delivery secrets.
fn source_lines(rng: &mut Rng) {
    for index in [0, 1, 127, 128, 300, 16_384, 2_097_152, u32::MAX] {
        for dir in *b"IR" {
            let key: [u8; 32] = rng.bytes();
            let generation = rng.next() as u8;
            let tag = raw::route_tag(&key, dir, generation, index);
            println!(
                "route {} {} {generation} {index} {}",
                hex(&key),
                char::from(dir),
                hex(&tag)
            );
        }
        let secret: [u8; 16] = rng.bytes();
        println!("commitment {} {}", hex(&secret), hex(&raw::commitment(&secret)));
        let key: [u8; 32] = rng.bytes();
        println!("delivered {} {}", hex(&key), hex(&raw::delivered(&key)));
    }
}

pub fn print() {
    let mut rng = Rng::new(384);
    hash_lines(&mut rng);
    mac_lines(&mut rng);
    expand_lines(&mut rng);
    source_lines(&mut rng);
}

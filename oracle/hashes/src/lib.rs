//! SHA-384 (FIPS 180-4), HMAC (FIPS 198-1) and HKDF (RFC 5869) with it.

mod mac;
mod sha384;

pub use mac::{hkdf, hmac};
pub use sha384::hash as sha384;

pub const DIGEST: usize = 48;
pub const BLOCK: usize = 128;

pub fn hex(bytes: &[u8]) -> String {
    bytes.iter().map(|byte| format!("{byte:02x}")).collect()
}

//! The trait that the source asks of its backend. Who implements it is in the crate `reference`.

use zeroize::Zeroizing;

pub const MLKEM768_ENCAPSULATION_KEY_LEN: usize = 1184;
pub const XWING_ENCAPSULATION_KEY_LEN: usize = 1216;
pub const XWING_CIPHERTEXT_LEN: usize = 1120;

#[derive(Debug, Clone, Copy, PartialEq, Eq)]
pub enum CryptoError {
    AuthenticationFailed,
    InvalidKey,
    ZeroSharedSecret,
    /// A fault of the backend itself, none of the peer's.
    Backend,
}

pub struct XWingDecapsulationKey;

pub type Secret = Zeroizing<[u8; 32]>;
pub type Encapsulated = ([u8; XWING_CIPHERTEXT_LEN], Secret);
pub type KeyPair = ([u8; XWING_ENCAPSULATION_KEY_LEN], XWingDecapsulationKey);

pub trait CryptoBackend {
    fn sha384(message: &[u8]) -> [u8; 48];
    fn hmac_sha384(key: &[u8], message: &[u8]) -> Result<[u8; 48], CryptoError>;
    fn hkdf_sha384(ikm: &[u8], salt: &[u8], info: &[u8], length: usize) -> Result<Zeroizing<Vec<u8>>, CryptoError>;
    fn aes256gcm_seal(key: &[u8; 32], nonce: &[u8; 12], aad: &[u8], plaintext: &[u8]) -> Result<Vec<u8>, CryptoError>;
    fn aes256gcm_open(
        key: &[u8; 32],
        nonce: &[u8; 12],
        aad: &[u8],
        ciphertext: &[u8],
    ) -> Result<Zeroizing<Vec<u8>>, CryptoError>;
    fn fill_random(output: &mut [u8]) -> Result<(), CryptoError>;
    fn xwing_generate() -> Result<KeyPair, CryptoError>;
    fn xwing_encapsulate(public: &[u8; XWING_ENCAPSULATION_KEY_LEN]) -> Result<Encapsulated, CryptoError>;
    fn xwing_decapsulate(
        key: &XWingDecapsulationKey,
        ciphertext: &[u8; XWING_CIPHERTEXT_LEN],
    ) -> Result<Secret, CryptoError>;
}

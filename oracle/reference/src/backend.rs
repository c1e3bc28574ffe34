//! The backend: hashes from the standards, AES steered by the caller.

use cairn_crypto::{
    CryptoBackend, CryptoError, Encapsulated, KeyPair, Secret, XWING_CIPHERTEXT_LEN, XWING_ENCAPSULATION_KEY_LEN,
    XWingDecapsulationKey,
};
use std::cell::RefCell;
use zeroize::Zeroizing;

/// What opening a ciphertext does while a call of the source runs.
#[derive(Clone, Copy)]
pub(crate) enum Opening {
    /// It stops with a fault of the backend, and what it was asked is kept. The source changes nothing then.
    Stop,
    /// It opens to this message, and the delivery secret is this.
    Message([u8; 16]),
    /// It opens to what is no message.
    NoMessage,
    /// It does not authenticate.
    Fails,
}

/// The key and the additional data of an opening.
pub(crate) type Asked = ([u8; 32], Vec<u8>);

thread_local! {
    static OPENING: RefCell<Opening> = const { RefCell::new(Opening::Stop) };
    static ASKED: RefCell<Option<Asked>> = const { RefCell::new(None) };
}

/// Runs `call` with `opening`; answers what the source asked to open, if it did.
pub(crate) fn steered<T>(opening: Opening, call: impl FnOnce() -> T) -> (T, Option<Asked>) {
    OPENING.set(opening);
    ASKED.take();
    let result = call();
    OPENING.set(Opening::Stop);
    (result, ASKED.take())
}

/// Message number 1 with an empty text, in the smallest bucket.
fn message() -> Zeroizing<Vec<u8>> {
    let mut inner = vec![0; 32];
    inner[0] = 1;
    Zeroizing::new(inner)
}

pub(crate) struct Backend;

impl CryptoBackend for Backend {
    fn sha384(message: &[u8]) -> [u8; 48] {
        hashes::sha384(message)
    }

    fn hmac_sha384(key: &[u8], message: &[u8]) -> Result<[u8; 48], CryptoError> {
        Ok(hashes::hmac(key, message))
    }

    /// The delivery secret of a steered message is the one that the report names: it cannot be had from a key.
    fn hkdf_sha384(ikm: &[u8], salt: &[u8], info: &[u8], length: usize) -> Result<Zeroizing<Vec<u8>>, CryptoError> {
        if let Opening::Message(secret) = OPENING.with_borrow(|opening| *opening)
            && info.ends_with(b"cairn-r1 delivered")
        {
            return Ok(Zeroizing::new(secret.to_vec()));
        }
        let output = hashes::hkdf(ikm, salt, info, length).ok_or(CryptoError::Backend)?;
        Ok(Zeroizing::new(output))
    }

    fn aes256gcm_open(key: &[u8; 32], _: &[u8; 12], aad: &[u8], _: &[u8]) -> Result<Zeroizing<Vec<u8>>, CryptoError> {
        ASKED.set(Some((*key, aad.to_vec())));
        match OPENING.with_borrow(|opening| *opening) {
            Opening::Stop => Err(CryptoError::Backend),
            Opening::Message(_) => Ok(message()),
            Opening::NoMessage => Ok(Zeroizing::new(vec![0; 32])),
            Opening::Fails => Err(CryptoError::AuthenticationFailed),
        }
    }

    fn aes256gcm_seal(_: &[u8; 32], _: &[u8; 12], _: &[u8], _: &[u8]) -> Result<Vec<u8>, CryptoError> {
        Err(CryptoError::Backend)
    }

    fn fill_random(_: &mut [u8]) -> Result<(), CryptoError> {
        Err(CryptoError::Backend)
    }

    fn xwing_generate() -> Result<KeyPair, CryptoError> {
        Err(CryptoError::Backend)
    }

    fn xwing_encapsulate(_: &[u8; XWING_ENCAPSULATION_KEY_LEN]) -> Result<Encapsulated, CryptoError> {
        Err(CryptoError::Backend)
    }

    fn xwing_decapsulate(_: &XWingDecapsulationKey, _: &[u8; XWING_CIPHERTEXT_LEN]) -> Result<Secret, CryptoError> {
        Err(CryptoError::Backend)
    }
}

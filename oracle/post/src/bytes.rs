use std::fmt;
use std::ops::{Deref, DerefMut};

/// Bytes that print as hex digits, shortened when they are many.
#[derive(Clone, PartialEq, Eq, Default, Hash)]
pub struct Bytes(pub Vec<u8>);

const SHOWN: usize = 96;

impl fmt::Debug for Bytes {
    fn fmt(&self, out: &mut fmt::Formatter<'_>) -> fmt::Result {
        write!(out, "[{}: ", self.0.len())?;
        for byte in self.0.iter().take(SHOWN) {
            write!(out, "{byte:02x}")?;
        }
        out.write_str(if self.0.len() > SHOWN { "..]" } else { "]" })
    }
}

/// The lines of a page, which print as text.
#[derive(Clone, PartialEq, Eq)]
pub struct Screen(pub Vec<u8>);

impl fmt::Debug for Screen {
    fn fmt(&self, out: &mut fmt::Formatter<'_>) -> fmt::Result {
        write!(out, "\"{}\"", self.0.escape_ascii())
    }
}

impl Deref for Bytes {
    type Target = Vec<u8>;
    fn deref(&self) -> &Vec<u8> {
        &self.0
    }
}

impl DerefMut for Bytes {
    fn deref_mut(&mut self) -> &mut Vec<u8> {
        &mut self.0
    }
}

impl From<Vec<u8>> for Bytes {
    fn from(bytes: Vec<u8>) -> Self {
        Self(bytes)
    }
}

impl From<&[u8]> for Bytes {
    fn from(bytes: &[u8]) -> Self {
        Self(bytes.to_vec())
    }
}

/// The `N` bytes from `at` on. The caller knows that they are there.
pub fn array<const N: usize>(bytes: &[u8], at: usize) -> [u8; N] {
    bytes[at..at + N].try_into().expect("N bytes")
}

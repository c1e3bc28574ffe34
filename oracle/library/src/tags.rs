//! The library's tags, delivery secrets and commitments. What is read and what is written lie between pages that nobody may touch.

use crate::calls::says_only;
use crate::different;
use crate::guarded::Guarded;
use goosetable_sys as sys;

/// One call's bytes: the key or secret that it reads, and the 16 bytes that it writes.
pub struct Tags {
    read: Guarded,
    written: Guarded,
}

impl Tags {
    /// The areas stand against the first or the last of their pages.
    pub fn new(first: bool) -> Self {
        Self {
            read: Guarded::new(32, first),
            written: Guarded::new(16, first),
        }
    }

    fn lend(&mut self, read: &[u8], area: &[u8; 16]) {
        self.read.set(read);
        self.written.set(area);
    }

    /// The 16 bytes afterwards, where what was read and the bytes beside both areas stayed.
    fn left(&self, read: &[u8]) -> Result<[u8; 16], String> {
        let mut found = Vec::new();
        let left: [u8; 16] = self.written.bytes().try_into().expect("16 bytes");
        different("what is only read", &self.read, read, &mut found);
        different("what is written", &self.written, &left, &mut found);
        found.pop().map_or(Ok(left), Err)
    }

    /// The number that the answer says, and the tag's area afterwards, which was `area`.
    pub fn route_tag(
        &mut self,
        key: &[u8; 32],
        dir: u8,
        generation: u8,
        index: u32,
        area: &[u8; 16],
    ) -> Result<(u8, [u8; 16]), String> {
        self.lend(key, area);
        let answer = sys::route_tag(self.read.array(), dir, generation, index, self.written.array_mut());
        if answer != says_only(answer.said) {
            return Err(format!("{answer:?} says more than its number"));
        }
        Ok((answer.said, self.left(key)?))
    }

    pub fn delivered(&mut self, key: &[u8; 32], area: &[u8; 16]) -> Result<[u8; 16], String> {
        self.lend(key, area);
        sys::delivered(self.read.array(), self.written.array_mut());
        self.left(key)
    }

    pub fn commitment(&mut self, secret: &[u8; 16], area: &[u8; 16]) -> Result<[u8; 16], String> {
        self.lend(secret, area);
        sys::commitment(self.read.array(), self.written.array_mut());
        self.left(secret)
    }
}

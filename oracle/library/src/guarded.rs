//! Memory for a lent area between two pages that nobody may touch. The area stands against one of them, so that a byte read or
//! written past that end stops the program; past the other end lies a zone whose bytes must stay.

use std::cell::RefCell;
use std::collections::BTreeMap;
use std::ffi::{c_int, c_void};
use std::sync::atomic::{AtomicU64, Ordering};

unsafe extern "C" {
    fn mmap(at: *mut c_void, length: usize, protection: c_int, flags: c_int, file: c_int, offset: i64) -> *mut c_void;
    fn mprotect(at: *mut c_void, length: usize, protection: c_int) -> c_int;
    fn signal(number: c_int, handler: extern "C" fn(c_int)) -> usize;
    fn _exit(status: c_int) -> !;
}

const PAGE: usize = 4_096;
const ZONE: usize = 64;
const ZONE_BYTE: u8 = 0xe7;

pub struct Guarded {
    pages: *mut u8,
    /// Bytes between the two outer pages.
    room: usize,
    at: usize,
    length: usize,
    /// Whether the area stands against the first page; else against the last.
    first: bool,
}

thread_local! {
    /// Pages that no area uses any more, by the bytes between the outer two.
    static FREE: RefCell<BTreeMap<usize, Vec<*mut u8>>> = const { RefCell::new(BTreeMap::new()) };
}

/// New pages, of which the first and the last are closed.
fn mapped(room: usize) -> *mut u8 {
    const NONE: c_int = 0;
    const READ_WRITE: c_int = 3;
    const PRIVATE_ANONYMOUS: c_int = 0x22;
    // SAFETY: a new mapping of this process, and the part of it between its first and last page.
    unsafe {
        let pages = mmap(std::ptr::null_mut(), room + 2 * PAGE, NONE, PRIVATE_ANONYMOUS, -1, 0);
        assert!(pages as isize != -1, "no memory for a lent area");
        let opened = mprotect(pages.byte_add(PAGE), room, READ_WRITE);
        assert!(opened == 0, "no memory for a lent area");
        pages.cast()
    }
}

impl Guarded {
    /// Room for areas up to so many bytes.
    pub fn new(most: usize, first: bool) -> Self {
        let room = (most + ZONE).next_multiple_of(PAGE);
        let used = FREE.with_borrow_mut(|free| free.get_mut(&room).and_then(Vec::pop));
        Self {
            pages: used.unwrap_or_else(|| mapped(room)),
            room,
            at: 0,
            length: 0,
            first,
        }
    }

    pub fn of(bytes: &[u8], first: bool) -> Self {
        let mut area = Self::new(bytes.len(), first);
        area.set(bytes);
        area
    }

    /// All the bytes between the outer pages.
    fn inside(&self) -> &[u8] {
        // SAFETY: `mapped` made them readable and writable, and no other area has them before `drop`.
        unsafe { std::slice::from_raw_parts(self.pages.add(PAGE), self.room) }
    }

    fn inside_mut(&mut self) -> &mut [u8] {
        // SAFETY: as in `inside`; `self` is borrowed alone.
        unsafe { std::slice::from_raw_parts_mut(self.pages.add(PAGE), self.room) }
    }

    fn zone(&self) -> std::ops::Range<usize> {
        if self.first {
            self.length..self.length + ZONE
        } else {
            self.at - ZONE..self.at
        }
    }

    /// The area is these bytes now.
    pub fn set(&mut self, bytes: &[u8]) {
        if bytes.len() + ZONE > self.room {
            *self = Self::new(bytes.len(), self.first);
        }
        self.length = bytes.len();
        self.at = if self.first { 0 } else { self.room - bytes.len() };
        let (at, zone) = (self.at, self.zone());
        let inside = self.inside_mut();
        inside[at..at + bytes.len()].copy_from_slice(bytes);
        inside[zone].fill(ZONE_BYTE);
    }

    pub fn bytes(&self) -> &[u8] {
        &self.inside()[self.at..self.at + self.length]
    }

    pub fn bytes_mut(&mut self) -> &mut [u8] {
        let (at, end) = (self.at, self.at + self.length);
        &mut self.inside_mut()[at..end]
    }

    /// As a call takes an area of fixed length.
    pub fn array<const N: usize>(&self) -> &[u8; N] {
        self.bytes().try_into().expect("the fixed length")
    }

    pub fn array_mut<const N: usize>(&mut self) -> &mut [u8; N] {
        self.bytes_mut().try_into().expect("the fixed length")
    }

    /// The bytes of the zone, for a switch that makes the library wrong.
    pub fn zone_mut(&mut self) -> &mut [u8] {
        let zone = self.zone();
        &mut self.inside_mut()[zone]
    }

    /// Reads the byte of the page that the area stands against, for a switch that makes the library wrong.
    pub fn read_outside(&self) {
        let bytes = self.bytes();
        let past = if self.first {
            bytes.as_ptr().wrapping_sub(1)
        } else {
            bytes.as_ptr_range().end
        };
        // SAFETY: none; it ends the program.
        unsafe { past.read_volatile() };
    }

    pub fn zone_stayed(&self) -> bool {
        self.inside()[self.zone()].iter().all(|byte| *byte == ZONE_BYTE)
    }
}

impl Drop for Guarded {
    fn drop(&mut self) {
        FREE.with_borrow_mut(|free| free.entry(self.room).or_default().push(self.pages));
    }
}

static SEED: AtomicU64 = AtomicU64::new(0);

extern "C" fn outside(_: c_int) {
    let seed = SEED.load(Ordering::Relaxed);
    eprintln!("first difference: seed {seed}: the library read or wrote outside the areas that it was lent");
    // SAFETY: ends the process.
    unsafe { _exit(1) };
}

/// Says so, with the seed of the list, where the library goes outside an area.
pub fn watch(seed: u64) {
    const SEGMENT: c_int = 11;
    SEED.store(seed, Ordering::Relaxed);
    // SAFETY: the handler ends the process.
    unsafe { signal(SEGMENT, outside) };
}

//! SHA-384 beside plain Rust and libcrypto.

use crate::timing::best;
use std::ffi::{c_char, c_int, c_void};
use std::hint::black_box;

type Digest = [u8; 48];
type Sha384OfLibcrypto = unsafe extern "C" fn(*const u8, usize, *mut Digest) -> *mut u8;

unsafe extern "C" {
    fn bench_sha384(m: *const u8, len: usize, out: *mut Digest);
    fn dlopen(name: *const c_char, flags: c_int) -> *mut c_void;
    fn dlsym(library: *mut c_void, name: *const c_char) -> *mut c_void;
}

fn proved(m: &[u8]) -> Digest {
    let mut digest = [0; 48];
    // SAFETY: the pointer goes with its length, and the digest has its own.
    unsafe { bench_sha384(m.as_ptr(), m.len(), &mut digest) };
    digest
}

/// libcrypto's `SHA384`, where the machine has it.
fn libcrypto() -> Option<impl Fn(&[u8]) -> Digest> {
    const RTLD_NOW: c_int = 2;
    let names = [c"libcrypto.so.3", c"libcrypto.so.1.1", c"libcrypto.so"];
    // SAFETY: the names end in a zero, and a library that was found stays open.
    let mut functions = names.iter().map(|name| unsafe {
        let library = dlopen(name.as_ptr(), RTLD_NOW);
        if library.is_null() { library } else { dlsym(library, c"SHA384".as_ptr()) }
    });
    let found = functions.find(|function| !function.is_null())?;
    // SAFETY: OpenSSL declares it so.
    let function = unsafe { std::mem::transmute::<*mut c_void, Sha384OfLibcrypto>(found) };
    Some(move |m: &[u8]| {
        let mut digest = [0; 48];
        // SAFETY: the pointer goes with its length, and the digest has its own.
        unsafe { function(m.as_ptr(), m.len(), &mut digest) };
        digest
    })
}

pub fn run() {
    let data: Vec<u8> = (0..1u32 << 20).map(|i| (i.wrapping_mul(2_654_435_761) >> 24) as u8).collect();
    let crypto = libcrypto();
    for length in (0..=300).chain([1_000, 4_096, data.len()]) {
        let m = &data[..length];
        let digest = proved(m);
        assert!(digest == hashes::sha384(m), "the digest of {length} bytes differs from plain Rust's");
        assert!(
            crypto.as_ref().is_none_or(|hash| digest == hash(m)),
            "the digest of {length} bytes differs from libcrypto's"
        );
    }
    println!("| SHA-384 of | proved, ns | of plain Rust | goal | of libcrypto |\n|---|---|---|---|---|");
    for (length, rounds, calls, goal) in [(data.len(), 200, 1, 1.1), (48, 2_000, 200, 1.3)] {
        let m = &data[..length];
        let ours = || {
            black_box(proved(black_box(m)));
        };
        let rust = || {
            black_box(hashes::sha384(black_box(m)));
        };
        let theirs = || {
            crypto.as_ref().map(|hash| black_box(hash(black_box(m))));
        };
        let times = best(rounds, calls, &[&ours, &rust, &theirs]);
        let of_libcrypto = crypto.as_ref().map_or("not here".into(), |_| format!("{:.2}", times[0] / times[2]));
        println!("| {length} bytes | {:.0} | {:.2} | {goal} | {of_libcrypto} |", times[0], times[0] / times[1]);
    }
}

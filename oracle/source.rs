//! For the build scripts that compile the Rust source: finds it, tests each file against `source.sha384`, and writes the `mod` lines. It is
//! compiled where it lies, unchanged but for one line of couriering.rs (request Two), whose copy is in the build's folder; the crate
//! `before` compiles it without that line.

use std::path::{Path, PathBuf};
use std::{env, fs, process::exit};

const LIST: &str = include_str!("source.sha384");
/// From a package two folders below the repository's top.
const DEFAULT: &str = "../../../shared/docs/src";

/// Request Two: in this file, behind the first of these lines, which stands there once, comes the second.
const CHANGED: &str = "core/cairn-proto/src/core/couriering.rs";
const BEHIND: &str = "                && !self.bad_tags.contains(&(peer, entry.tag))\n";
const ADDED: &str = "                && !self.tombstones().any(|tomb| tomb.tag == entry.tag)\n";

/// What is compiled; each build script names one of them.
#[allow(dead_code)]
#[derive(Clone, Copy, PartialEq, Eq)]
pub enum Text {
    /// The source as it lies.
    AsItLies,
    /// The source with request Two's line.
    WithRequestTwo,
}

fn stop(reason: &str) -> ! {
    println!("cargo::error={reason}");
    exit(1);
}

/// A build script runs in its package's folder, so that a relative path would not be the caller's: the scripts of
/// oracle/ and bench/ make it absolute.
fn folder() -> PathBuf {
    println!("cargo::rerun-if-env-changed=CAIRN_SRC");
    let named = env::var_os("CAIRN_SRC").map(PathBuf::from);
    if named.as_ref().is_some_and(|path| path.is_relative()) {
        stop("CAIRN_SRC is relative: for cargo alone it must be an absolute path");
    }
    let folder = named.unwrap_or_else(|| DEFAULT.into());
    fs::canonicalize(&folder).unwrap_or_else(|_| {
        stop(&format!(
            "no Rust source at {}: repository trancee/cairn, commit 045324b408; CAIRN_SRC names its folder",
            folder.display()
        ))
    })
}

fn out() -> PathBuf {
    PathBuf::from(env::var_os("OUT_DIR").expect("cargo sets OUT_DIR"))
}

/// One file of the list: its path and its bytes, if they are those of the list.
fn checked(folder: &Path, sum: &str, name: &str) -> (PathBuf, Vec<u8>) {
    let path = folder.join(name);
    println!("cargo::rerun-if-changed={}", path.display());
    let Ok(bytes) = fs::read(&path) else {
        stop(&format!("{name} is missing in {}", folder.display()));
    };
    if hashes::hex(&hashes::sha384(&bytes)) != sum {
        stop(&format!(
            "{name} in {} is not the file of commit 045324b408: its SHA-384 differs from oracle/source.sha384",
            folder.display()
        ));
    }
    (path, bytes)
}

/// The lines of a file, each with its end.
fn lines(bytes: &[u8]) -> Vec<&[u8]> {
    bytes.split_inclusive(|byte| *byte == b'\n').collect()
}

/// The places at which a line stands in a file.
fn places(lines: &[&[u8]], wanted: &str) -> Vec<usize> {
    let is_wanted = |place: &usize| lines[*place] == wanted.as_bytes();
    (0..lines.len()).filter(is_wanted).collect()
}

/// The bytes of the file with request Two's line.
fn with_request_two(listed: &[u8]) -> Vec<u8> {
    let mut lines = lines(listed);
    let [place] = places(&lines, BEHIND)[..] else {
        let line = BEHIND.trim();
        stop(&format!("request Two: in {CHANGED} the line `{line}` must stand once"));
    };
    lines.insert(place + 1, ADDED.as_bytes());
    lines.concat()
}

/// Request Two's line is the only difference: the copy has it once, behind its line, and without it is the listed file byte by byte.
fn test_copy(copy: &[u8], listed: &[u8]) {
    let mut lines = lines(copy);
    let [place] = places(&lines, ADDED)[..] else {
        stop("request Two: the copy of couriering.rs must have the added line once");
    };
    if place == 0 || lines[place - 1] != BEHIND.as_bytes() {
        stop("request Two: the added line is not behind the line that tests for bad tags");
    }
    lines.remove(place);
    if lines.concat() != listed {
        stop("request Two: the copy of couriering.rs differs from the listed file in more than the added line");
    }
}

/// The copy of couriering.rs with request Two's line, in the build's folder and read back.
fn copy_with_request_two(listed: &[u8]) -> PathBuf {
    let path = out().join("couriering.rs");
    fs::write(&path, with_request_two(listed)).expect("OUT_DIR can be written");
    test_copy(&fs::read(&path).expect("just written"), listed);
    path
}

/// What the compiler says of the source's style is not ours.
fn module(path: &Path) -> String {
    let name = path.file_stem().expect("a file").to_string_lossy();
    format!("#[allow(warnings, clippy::all)]\n#[path = {path:?}]\nmod {name};\n")
}

/// Writes root.rs and core.rs to OUT_DIR: the lines given, then those of the source's files; core.rs has the ones of the
/// source's folder `core`.
pub fn write_modules(root: &str, core: &str, text: Text) {
    let folder = folder();
    let (mut root, mut core) = (root.to_owned(), core.to_owned());
    let mut as_asked = text == Text::AsItLies;
    for line in LIST.lines() {
        let Some((sum, name)) = line.split_once("  ") else {
            stop("oracle/source.sha384 has a line of another shape");
        };
        let (mut path, bytes) = checked(&folder, sum, name);
        if name == CHANGED && text == Text::WithRequestTwo {
            path = copy_with_request_two(&bytes);
            as_asked = true;
        }
        let inside = name.contains("/core/");
        (if inside { &mut core } else { &mut root }).push_str(&module(&path));
    }
    if !as_asked {
        stop(&format!("request Two: {CHANGED} is not in oracle/source.sha384"));
    }
    fs::write(out().join("root.rs"), root).expect("OUT_DIR can be written");
    fs::write(out().join("core.rs"), core).expect("OUT_DIR can be written");
}

//! Writes the `mod` lines that compile the Rust source: where it lies, unchanged but for one line of couriering.rs (request Two), whose copy
//! is in the build's folder.

#[path = "../source.rs"]
mod source;

fn main() {
    source::write_modules("", "", source::Text::WithRequestTwo);
}

//! Writes the `mod` lines that compile the Rust source where it lies, unchanged: without request Two's line.

#[path = "../source.rs"]
mod source;

fn main() {
    source::write_modules("", "", source::Text::AsItLies);
}

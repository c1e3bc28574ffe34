//! Writes the two lists of modules that oracle/reference includes, as its own build script does, with request Two's line too, and puts `timed.rs`
//! into its `core`: the source's calls are visible only there.

#[path = "../../oracle/source.rs"]
mod source;

fn main() {
    let timed = std::fs::canonicalize("timed.rs").expect("it is beside this script");
    let core = format!("#[path = {timed:?}]\npub mod timed;\n");
    source::write_modules("pub use crate::core::timed;\n", &core, source::Text::WithRequestTwo);
}

//! Says where `libgoosetable.a` lies: in the folder that `GOOSETABLE_LIB` names, else in the repository's target/staticlib.

use std::{env, path::PathBuf, process};

fn main() {
    println!("cargo::rerun-if-env-changed=GOOSETABLE_LIB");
    let folder = env::var_os("GOOSETABLE_LIB").map_or_else(
        || {
            PathBuf::from(env::var_os("CARGO_MANIFEST_DIR").unwrap_or_default())
                .join("../../../target/staticlib")
        },
        PathBuf::from,
    );
    if folder.is_relative() {
        eprintln!(
            "GOOSETABLE_LIB names the folder {}: it must be absolute, since a build script does not know where it was called",
            folder.display()
        );
        process::exit(1);
    }
    let archive = folder.join("libgoosetable.a");
    if !archive.is_file() {
        eprintln!(
            "no {}: `tools/build goosetable` builds it; GOOSETABLE_LIB names another folder",
            archive.display()
        );
        process::exit(1);
    }
    println!("cargo::rerun-if-changed={}", archive.display());
    println!("cargo::rustc-link-search=native={}", folder.display());
    println!("cargo::rustc-link-lib=static=goosetable");
}

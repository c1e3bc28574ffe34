//! Links `libbench_exports.a`, from the folder in which `libgoosetable.a` lies: the one that `GOOSETABLE_LIB` names, else target/staticlib.

use std::{env, path::PathBuf, process::exit};

fn main() {
    println!("cargo::rerun-if-env-changed=GOOSETABLE_LIB");
    let folder = env::var_os("GOOSETABLE_LIB").map_or_else(
        || PathBuf::from(env::var_os("CARGO_MANIFEST_DIR").unwrap_or_default()).join("../target/staticlib"),
        PathBuf::from,
    );
    let archive = folder.join("libbench_exports.a");
    if !archive.is_file() {
        println!("cargo::error=no {}: `tools/build bench_exports` builds it", archive.display());
        exit(1);
    }
    println!("cargo::rerun-if-changed={}", archive.display());
    println!("cargo::rustc-link-search=native={}", folder.display());
    println!("cargo::rustc-link-lib=static=bench_exports");
}

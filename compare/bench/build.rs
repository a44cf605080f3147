//! Links libentry.a: from the folder ENTRY_LIB, or from the repository's crates/entry/out.

use std::path::PathBuf;

fn main() {
    println!("cargo::rerun-if-env-changed=ENTRY_LIB");
    let here = PathBuf::from(std::env::var("CARGO_MANIFEST_DIR").expect("cargo sets it"));
    let built = here.join("../../crates/entry/out");
    let folder = std::env::var("ENTRY_LIB").map_or(built, PathBuf::from);
    println!("cargo::rerun-if-changed={}", folder.join("libentry.a").display());
    println!("cargo::rustc-link-search=native={}", folder.display());
    println!("cargo::rustc-link-lib=static=entry");
}

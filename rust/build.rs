//! Links libsegvartin.a: from SEGVARTIN_LIB_DIR, or from where `tools/archive library` writes it.

use std::path::PathBuf;

fn main() {
    let beside = PathBuf::from(env!("CARGO_MANIFEST_DIR")).join("../target/staticlib");
    let dir = std::env::var_os("SEGVARTIN_LIB_DIR").map_or(beside, PathBuf::from);
    let library = dir.join("libsegvartin.a");
    println!("cargo::rerun-if-env-changed=SEGVARTIN_LIB_DIR");
    println!("cargo::rerun-if-changed={}", library.display());
    if !library.is_file() {
        println!(
            "cargo::error={} is missing: `tools/archive library` at the root of the repository makes it",
            library.display()
        );
        return;
    }
    println!("cargo::rustc-link-search=native={}", dir.display());
    println!("cargo::rustc-link-lib=static=segvartin");
}

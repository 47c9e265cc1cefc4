//! Links the archive of proved figures that `make figures` writes.

use std::path::Path;

fn main() {
    let home = std::env::var("CARGO_MANIFEST_DIR").expect("cargo says where the package lies");
    let archives = Path::new(&home).join("../../target/staticlib");
    let archive = archives.join("libfigures.a");
    println!("cargo::rerun-if-changed={}", archive.display());
    if !archive.is_file() {
        println!("cargo::error=no target/staticlib/libfigures.a: run `make figures` first");
    }
    println!("cargo::rustc-link-search=native={}", archives.display());
    println!("cargo::rustc-link-lib=static=figures");
}

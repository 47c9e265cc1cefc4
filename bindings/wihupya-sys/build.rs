//! Links the archive of exported calls that `make exported` writes.

use std::path::Path;

fn main() {
    let home = std::env::var("CARGO_MANIFEST_DIR").expect("cargo says where the package lies");
    let archives = Path::new(&home).join("../../target/staticlib");
    let archive = archives.join("libwihupya.a");
    println!("cargo::rerun-if-changed={}", archive.display());
    if !archive.is_file() {
        println!("cargo::error=no target/staticlib/libwihupya.a: run `make exported` first");
    }
    println!("cargo::rustc-link-search=native={}", archives.display());
    println!("cargo::rustc-link-lib=static=wihupya");
}

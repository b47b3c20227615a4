//! Links `libgirzhanok.a`, which `rt lib` in crates/girzhanok writes: from GIRZHANOK_LIB_DIR, or else from the out/ of that folder.
use std::env;
use std::path::PathBuf;

fn main() {
    let dir = match env::var_os("GIRZHANOK_LIB_DIR") {
        Some(dir) => PathBuf::from(dir),
        None => PathBuf::from(env::var_os("CARGO_MANIFEST_DIR").expect("cargo sets it")).join("../../crates/girzhanok/out"),
    };
    let archive = dir.join("libgirzhanok.a");
    println!("cargo:rerun-if-env-changed=GIRZHANOK_LIB_DIR");
    println!("cargo:rerun-if-changed={}", archive.display());
    if !archive.is_file() {
        panic!("there is no {}: `rt lib` in crates/girzhanok writes it, or set GIRZHANOK_LIB_DIR to its folder", archive.display());
    }
    println!("cargo:rustc-link-search=native={}", dir.display());
    println!("cargo:rustc-link-lib=static=girzhanok");
}

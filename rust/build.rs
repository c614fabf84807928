//! Links libluwhenoka.a, which `tools/archive` writes to target/staticlib. LUWHENOKA_LIB names another folder.

use std::env;
use std::path::PathBuf;

fn main() {
    let here = PathBuf::from(env::var_os("CARGO_MANIFEST_DIR").expect("cargo sets it"));
    let folder = match env::var_os("LUWHENOKA_LIB") {
        Some(folder) => PathBuf::from(folder),
        None => here.join("..").join("target").join("staticlib"),
    };
    let archive = folder.join("libluwhenoka.a");
    if !archive.is_file() {
        panic!("no {}: make it with `tools/archive`, or name its folder in LUWHENOKA_LIB", archive.display());
    }
    println!("cargo:rustc-link-search=native={}", folder.display());
    println!("cargo:rustc-link-lib=static=luwhenoka");
    println!("cargo:rerun-if-changed={}", archive.display());
    println!("cargo:rerun-if-changed=build.rs");
    println!("cargo:rerun-if-env-changed=LUWHENOKA_LIB");
}

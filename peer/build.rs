//! Links the proved library where its archive is found.
//!
//! The archive `libpanel.a` is looked for in the folder named by the environment
//! variable `ZHIBLATOR_LIB`, or else in `../target/staticlib`. Where it is found,
//! `cfg(proved)` is set.

use std::env;
use std::path::PathBuf;

const ARCHIVE: &str = "libpanel.a";

fn main() {
    println!("cargo:rustc-check-cfg=cfg(proved)");
    println!("cargo:rerun-if-changed=build.rs");
    println!("cargo:rerun-if-env-changed=ZHIBLATOR_LIB");

    let folder = folder();
    let archive = folder.join(ARCHIVE);
    println!("cargo:rerun-if-changed={}", archive.display());
    if archive.is_file() {
        println!("cargo:rustc-link-search=native={}", folder.display());
        println!("cargo:rustc-link-lib=static=panel");
        println!("cargo:rustc-cfg=proved");
    }
}

fn folder() -> PathBuf {
    let package = PathBuf::from(env::var_os("CARGO_MANIFEST_DIR").expect("set by cargo"));
    match env::var_os("ZHIBLATOR_LIB") {
        Some(folder) if !folder.is_empty() => package.join(folder),
        _ => package.join("../target/staticlib"),
    }
}

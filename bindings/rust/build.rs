//! Finds libcabinet.a: in FINDER_LIB_DIR, else where `tools/build cabinet` puts it.
use std::{env, path::PathBuf};

fn main() {
    println!("cargo:rerun-if-env-changed=FINDER_LIB_DIR");
    let here = PathBuf::from(env::var_os("CARGO_MANIFEST_DIR").unwrap());
    let dir = env::var_os("FINDER_LIB_DIR").map_or(here.join("../../target/staticlib"), PathBuf::from);
    let archive = dir.join("libcabinet.a");
    if !archive.is_file() {
        panic!("{} is missing: run `tools/build cabinet`, or set FINDER_LIB_DIR", archive.display());
    }
    println!("cargo:rerun-if-changed={}", archive.display());
    println!("cargo:rustc-link-search=native={}", dir.display());
    println!("cargo:rustc-link-lib=static=cabinet");
}

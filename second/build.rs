//! Says where the library under judgement is, `libslt.a`; `src/ffi.rs` links it.
//!
//! The archive is looked for in `../target/staticlib`. SLT_LIB_DIR names another directory, so that the
//! comparison can itself be tried against an archive with known mistakes in it.

use std::env;
use std::path::PathBuf;

fn main() {
    let directory = match env::var_os("SLT_LIB_DIR") {
        Some(named) => PathBuf::from(named),
        None => PathBuf::from(env::var_os("CARGO_MANIFEST_DIR").expect("set by cargo")).join("../target/staticlib"),
    };
    println!("cargo::rerun-if-env-changed=SLT_LIB_DIR");
    println!("cargo::rerun-if-changed={}", directory.join("libslt.a").display());
    println!("cargo::rustc-link-search=native={}", directory.display());
}

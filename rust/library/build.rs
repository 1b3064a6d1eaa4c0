//! On x86-64 programs are linked with the proved static library; on other machines the worker is, when it is first started.

#[path = "src/digest.rs"]
mod digest;

use std::{env, fs};

/// The static library, from this crate's folder.
const LIBRARY: &str = "../../target/staticlib/libchecker.a";

/// Tells cargo what to link, and the crate the digest of it.
fn main() {
    println!("cargo:rerun-if-changed=build.rs");
    println!("cargo:rerun-if-changed=src/digest.rs");
    if env::var("CARGO_CFG_TARGET_ARCH").as_deref() != Ok("x86_64") {
        return;
    }
    let here = env::var("CARGO_MANIFEST_DIR").expect("cargo gives the crate's folder");
    let library = format!("{here}/{LIBRARY}");
    println!("cargo:rerun-if-changed={library}");
    match fs::read(&library) {
        Ok(bytes) => println!(
            "cargo:rustc-env=SVERDHYLL_LIBRARY={}",
            digest::sha256(&bytes)
        ),
        Err(error) => panic!("{library}: {error}; ./sverdhyll or tools/staticlib checker makes it"),
    }
    println!("cargo:rustc-link-search=native={here}/../../target/staticlib");
    println!("cargo:rustc-link-lib=static:-bundle=checker");
}

// Lifts the Rust as oracle/build.rs does, and links the port's archive: PORT_ARCHIVE, or target/staticlib/libport.a.
use std::{env, path::PathBuf};

#[path = "../build.rs"]
mod lifting;

fn main() {
    let here = PathBuf::from(env::var("CARGO_MANIFEST_DIR").unwrap());
    let oracle = here.join("..");
    println!("cargo::rerun-if-changed=build.rs");
    println!("cargo::rerun-if-changed=../build.rs");
    println!("cargo::rerun-if-env-changed=PORT_ARCHIVE");
    lifting::lift(&oracle, &here.join("src"));
    let archive = match env::var("PORT_ARCHIVE") {
        Ok(path) => PathBuf::from(path),
        Err(_) => oracle.join("../target/staticlib/libport.a"),
    };
    let archive = archive.canonicalize().unwrap_or_else(|_| panic!("no archive of the port at {}", archive.display()));
    println!("cargo::rerun-if-changed={}", archive.display());
    println!("cargo::rustc-link-arg-bins={}", archive.display());
}

// Reads iso.rs and non_iso.rs as they stand and writes each, byte for byte, with one `mod` line behind it, by which
// src/access_*.rs reaches the private items. The folder is DWC2_RUST_SRC, or ../../shared/docs/src beside the repository.
use std::{
    env, fs,
    path::{Path, PathBuf},
};

const FILES: [&str; 2] = ["iso", "non_iso"];

// dead where the benchmark's build script takes `lift` from here
#[allow(dead_code)]
fn main() {
    let here = PathBuf::from(env::var("CARGO_MANIFEST_DIR").unwrap());
    println!("cargo::rerun-if-changed=build.rs");
    lift(&here, &here.join("src"));
}

/// `here` is the folder of this file, `access` that of the two access files.
pub fn lift(here: &Path, access: &Path) {
    println!("cargo::rustc-check-cfg=cfg(lifted)");
    println!("cargo::rerun-if-env-changed=DWC2_RUST_SRC");
    let out = PathBuf::from(env::var("OUT_DIR").unwrap());
    let root = match env::var("DWC2_RUST_SRC") {
        Ok(folder) => PathBuf::from(folder),
        Err(_) => here.join("../../shared/docs/src"),
    };
    let channel = root.join("src/backend/kmod/dwc2/channel");
    let mut texts = Vec::new();
    for file in FILES {
        let path = channel.join(format!("{file}.rs"));
        println!("cargo::rerun-if-changed={}", path.display());
        match fs::read(&path) {
            Ok(bytes) => texts.push(bytes),
            Err(_) => {
                println!("cargo::warning=no Rust sources at {}: nothing is lifted", channel.display());
                return;
            }
        }
    }
    let mut mods = String::new();
    let mut consts = String::new();
    for (file, bytes) in FILES.iter().zip(&texts) {
        let mut lifted = bytes.clone();
        let access = access.join(format!("access_{file}.rs"));
        lifted.extend_from_slice(format!("\n#[path = {access:?}]\npub(crate) mod access;\n").as_bytes());
        let path = out.join(format!("{file}.rs"));
        fs::write(&path, lifted).unwrap();
        mods.push_str(&format!("#[path = {path:?}]\npub(crate) mod {file};\n"));
        consts.push_str(&consts_of(file, bytes));
    }
    fs::write(out.join("channel_mods.rs"), mods).unwrap();
    fs::write(out.join("source_consts.rs"), consts).unwrap();
    println!("cargo::rustc-cfg=lifted");
}

/// what the crate knows of a file: which file it is, and the lines where iso.rs makes an error with a text, by which that error is told
fn consts_of(file: &str, bytes: &[u8]) -> String {
    let mut consts = String::new();
    let name = file.to_uppercase();
    if file == "iso" {
        let text = String::from_utf8_lossy(bytes);
        let lines: Vec<usize> = text.lines().enumerate().filter(|(_, line)| line.contains("anyhow!(")).map(|(i, _)| i + 1).collect();
        consts.push_str(&format!("pub const {name}_ERRORS: &[u32] = &{lines:?};\n"));
    }
    let count = bytes.iter().filter(|b| **b == b'\n').count();
    let sum = bytes.iter().fold(0xcbf2_9ce4_8422_2325u64, |h, b| (h ^ u64::from(*b)).wrapping_mul(0x100_0000_01b3));
    let len = bytes.len();
    consts.push_str(&format!("pub const {name}_SOURCE: &str = \"{file}.rs: {len} bytes, {count} lines, fnv64 {sum:016x}\";\n"));
    consts
}

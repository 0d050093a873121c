//! Finds the archive of the proved library: in the folder MUONGRABI_LIB_DIR, else in target/staticlib of the repository, for AArch64 in
//! target/staticlib/aarch64.

use std::env::{var, var_os};
use std::path::{Path, PathBuf};

const ARCHIVE: &str = "libmuongrabi.a";

/// Only an archive with the functions of `src/exports.rs` has one of this name.
const ABI: &str = "muongrabi_abi_6";

fn main() {
    println!("cargo::rerun-if-changed=build.rs");
    println!("cargo::rerun-if-env-changed=MUONGRABI_LIB_DIR");
    let (arch, os) = (var("CARGO_CFG_TARGET_ARCH"), var("CARGO_CFG_TARGET_OS"));
    let (built, what) = match (arch.as_deref(), os.as_deref()) {
        (Ok("x86_64"), Ok("linux" | "android")) => ("target/staticlib", "library"),
        (Ok("aarch64"), Ok("linux" | "android")) => ("target/staticlib/aarch64", "aarch64"),
        _ => {
            let target = var("TARGET").unwrap_or_else(|_| "another machine".into());
            stop(&format!("{ARCHIVE} is for x86-64 and AArch64 Linux, Android among them; this build is for {target}."))
        }
    };
    let repository = Path::new(env!("CARGO_MANIFEST_DIR")).join("../..");
    let repository = repository.canonicalize().unwrap_or(repository);
    let named = var_os("MUONGRABI_LIB_DIR").filter(|folder| !folder.is_empty()).map(PathBuf::from);
    let folder = named.clone().unwrap_or_else(|| repository.join(built));
    // Cargo runs a build script in the package's folder, so a relative name would not be the caller's.
    if folder.is_relative() {
        stop(&format!("MUONGRABI_LIB_DIR={} is a relative name; give the whole one.", folder.display()));
    }
    let archive = folder.join(ARCHIVE);
    if !archive.is_file() {
        stop(&format!(
            "the proved library is not there: no {ARCHIVE} in {folder}{named}.\n\
             Build it, which also proves it (some minutes; it needs the Rattle toolchain):\n\
             \n\
             \x20   cd {repository} && ./build {what}\n\
             \n\
             or name the folder that has it:\n\
             \n\
             \x20   MUONGRABI_LIB_DIR=/folder/of/the/archive cargo build",
            folder = folder.display(),
            named = if named.is_some() { ", which MUONGRABI_LIB_DIR names" } else { "" },
            repository = repository.display(),
        ));
    }
    let bytes = std::fs::read(&archive).unwrap_or_else(|error| stop(&format!("{}: {error}", archive.display())));
    if !bytes.windows(ABI.len() + 1).any(|name| name.strip_suffix(b"\0") == Some(ABI.as_bytes())) {
        stop(&format!("{} was built for another version of this crate: it has no {ABI}.\nBuild it again.", archive.display()));
    }
    println!("cargo::rerun-if-changed={}", archive.display());
    println!("cargo::rustc-link-search=native={}", folder.display());
    println!("cargo::rustc-link-lib=static=muongrabi");
}

/// Ends the build with these words, which cargo shows.
fn stop(words: &str) -> ! {
    eprintln!("muongrabi: {words}");
    std::process::exit(1)
}

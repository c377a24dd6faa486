//! Links libprobes.a if it is there: tests/archive writes it, for x86-64 alone, and tests/native puts it into a folder that ARCHIVES names.

use std::env;
use std::path::PathBuf;

fn main() {
    println!("cargo:rerun-if-env-changed=ARCHIVES");
    println!("cargo:rustc-check-cfg=cfg(archive)");
    let named = env::var_os("ARCHIVES").map(PathBuf::from);
    let fits = named.is_some() || env::var("CARGO_CFG_TARGET_ARCH").as_deref() == Ok("x86_64");
    let here = PathBuf::from(env::var("CARGO_MANIFEST_DIR").unwrap());
    let folder = named.unwrap_or_else(|| here.join("../../target/staticlib"));
    let archive = folder.join("libprobes.a");
    println!("cargo:rerun-if-changed={}", archive.display());
    if fits && archive.is_file() {
        println!("cargo:rustc-link-search=native={}", folder.display());
        println!("cargo:rustc-link-lib=static=probes");
        println!("cargo:rustc-cfg=archive");
    }
}

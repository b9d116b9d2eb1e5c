//! Links the archive of the proved program, where one is named.
//!
//! `HEIDBUMMEN_LIB=/path/to/libinterface.a cargo build --release` turns on the
//! `interface` cfg and hands the archive to the linker. Without the variable the
//! package builds all the same, and `compare` and `bench` say that there is
//! nothing to compare with.

use std::path::Path;

fn main() {
    println!("cargo:rerun-if-changed=build.rs");
    println!("cargo:rerun-if-env-changed=HEIDBUMMEN_LIB");
    println!("cargo:rustc-check-cfg=cfg(interface)");
    let Ok(path) = std::env::var("HEIDBUMMEN_LIB") else {
        return;
    };
    if path.is_empty() {
        return;
    }
    let archive = Path::new(&path)
        .canonicalize()
        .unwrap_or_else(|why| panic!("HEIDBUMMEN_LIB names {path}: {why}"));
    println!("cargo:rerun-if-changed={}", archive.display());
    println!("cargo:rustc-cfg=interface");
    // After the package's own objects, so that their undefined names find it.
    println!("cargo:rustc-link-arg={}", archive.display());
    // An archive of a program without the standard library brings a panic
    // handler of its own; the first one found, this package's, serves both.
    println!("cargo:rustc-link-arg=-Wl,-z,muldefs");
}

//! Links the archive of the proved library, which `rt lib` writes in crates/kotsghane.
use std::path::PathBuf;

fn main() {
    let here = std::env::var("CARGO_MANIFEST_DIR").expect("cargo names the folder of the crate");
    let folder = PathBuf::from(here).join("../../crates/kotsghane/out");
    let archive = folder.join("libkotsghane.a");
    println!("cargo:rerun-if-changed=build.rs");
    println!("cargo:rerun-if-changed={}", archive.display());
    assert!(
        archive.exists(),
        "crates/kotsghane/out/libkotsghane.a is missing: run `rt lib` in crates/kotsghane"
    );
    println!("cargo:rustc-link-search=native={}", folder.display());
    println!("cargo:rustc-link-lib=static=kotsghane");
}

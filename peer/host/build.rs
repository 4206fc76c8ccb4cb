//! Links the static library from SATURN_LIBRARY, a folder; else from the repository's target.

use std::path::PathBuf;

fn main() {
    let here = PathBuf::from(std::env::var("CARGO_MANIFEST_DIR").expect("cargo sets it"));
    let folder = std::env::var("SATURN_LIBRARY")
        .map_or_else(|_| here.join("../../target/staticlib"), PathBuf::from);
    println!("cargo:rustc-link-search=native={}", folder.display());
    println!("cargo:rustc-link-lib=static=firmware");
    println!("cargo:rerun-if-env-changed=SATURN_LIBRARY");
    println!(
        "cargo:rerun-if-changed={}",
        folder.join("libfirmware.a").display()
    );
}

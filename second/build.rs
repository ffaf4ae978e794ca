//! Links the C library when it is there; without it everything but the comparison is built.
//! The library is the file named by SECOND_LIBRARY, else ../crates/c_api/out/libc_api.a.

use std::env;
use std::path::PathBuf;

fn main() {
    println!("cargo:rustc-check-cfg=cfg(library)");
    println!("cargo:rerun-if-env-changed=SECOND_LIBRARY");
    println!("cargo:rerun-if-changed=build.rs");
    let folder = PathBuf::from(env::var_os("CARGO_MANIFEST_DIR").expect("cargo names the folder"));
    let usual = folder.join("../crates/c_api/out/libc_api.a");
    let library = env::var_os("SECOND_LIBRARY").map_or(usual, PathBuf::from);
    println!("cargo:rerun-if-changed={}", library.display());
    if library.exists() {
        println!("cargo:rustc-cfg=library");
        println!("cargo:rustc-link-arg={}", library.display());
    }
}

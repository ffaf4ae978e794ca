//! Finds the static library of the proved reader: at MIKHAKUN_LIB, else where `rt lib` in crates/c_api puts it.

use std::path::{Path, PathBuf};
use std::{env, process};

fn main() {
    println!("cargo:rerun-if-env-changed=MIKHAKUN_LIB");
    let archive = archive();
    println!("cargo:rerun-if-changed={}", archive.display());
    if env::var("CARGO_CFG_TARGET_ARCH").as_deref() != Ok("x86_64") {
        stop("the proved reader is compiled for x86-64: build with --target x86_64-unknown-linux-gnu");
    }
    if !archive.is_file() {
        stop(&format!(
            "there is no static library {}.\nBuild it with `rt lib` in the folder crates/c_api of the repository, or set MIKHAKUN_LIB to a copy of libc_api.a",
            archive.display()
        ));
    }
    let (folder, name) = folder_and_name(&archive);
    println!("cargo:rustc-link-search=native={}", folder.display());
    println!("cargo:rustc-link-lib=static={name}");
}

/// The archive asked for.
fn archive() -> PathBuf {
    match env::var_os("MIKHAKUN_LIB") {
        Some(path) => PathBuf::from(path),
        None => Path::new(&env::var_os("CARGO_MANIFEST_DIR").expect("cargo sets it")).join("../crates/c_api/out/libc_api.a"),
    }
}

/// What the linker asks for: the archive's folder, and its name without `lib` and `.a`.
fn folder_and_name(archive: &Path) -> (PathBuf, String) {
    let name = archive.file_name().and_then(|name| name.to_str()?.strip_prefix("lib")?.strip_suffix(".a"));
    let name = name.unwrap_or_else(|| stop(&format!("{} is not named libNAME.a", archive.display())));
    let file = archive.canonicalize().unwrap_or_else(|e| stop(&format!("{}: {e}", archive.display())));
    (file.parent().expect("a file is in a folder").to_path_buf(), name.to_string())
}

/// Ends the build with a message.
fn stop(message: &str) -> ! {
    eprintln!("mikhakun: {message}");
    process::exit(1)
}

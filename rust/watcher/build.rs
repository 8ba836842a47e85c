//! Links the watcher's static library, `libffi.a`.
//!
//! The archive is looked for in `crates/ffi/out` at the repository's root, where `rt lib` in
//! `crates/ffi` puts it, or in the folder that the environment variable `WATCHER_LIB_DIR` names.

use std::env;
use std::path::PathBuf;

fn main() {
    println!("cargo::rerun-if-changed=build.rs");
    println!("cargo::rerun-if-env-changed=WATCHER_LIB_DIR");

    let folder = match env::var_os("WATCHER_LIB_DIR") {
        Some(folder) => PathBuf::from(folder),
        None => {
            let manifest = env::var_os("CARGO_MANIFEST_DIR").expect("cargo sets it");
            PathBuf::from(manifest).join("../../crates/ffi/out")
        }
    };
    let archive = folder.join("libffi.a");
    println!("cargo::rerun-if-changed={}", archive.display());
    if !archive.is_file() {
        println!(
            "cargo::error={} is missing: run `rt lib` in the folder `crates/ffi`",
            archive.display()
        );
        return;
    }
    println!("cargo::rustc-link-search=native={}", folder.display());
    println!("cargo::rustc-link-lib=static=ffi");
}

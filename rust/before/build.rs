//! Links a second static library, the one in the folder that the environment variable
//! `WATCHER_BEFORE_DIR` names, with its functions called `before_..` instead of `watcher_..`; and
//! writes Rust's side of them, that of the crate `watcher` with these names.

use std::path::{Path, PathBuf};
use std::process::Command;
use std::{env, fs};

/// Without the variable the second library is today's, and what is measured is chance.
const TODAY: &str = "../../crates/ffi/out";

/// Rust's side of the functions.
const RAW: &str = "../watcher/src/raw.rs";

fn main() {
    println!("cargo::rerun-if-changed=build.rs");
    println!("cargo::rerun-if-changed={RAW}");
    println!("cargo::rerun-if-env-changed=WATCHER_BEFORE_DIR");
    println!("cargo::rerun-if-env-changed=WATCHER_LIB_DIR");

    let folder = env::var_os("WATCHER_BEFORE_DIR").or(env::var_os("WATCHER_LIB_DIR"));
    let archive = folder
        .map_or(PathBuf::from(TODAY), PathBuf::from)
        .join("libffi.a");
    println!("cargo::rerun-if-changed={}", archive.display());
    let out = PathBuf::from(env::var_os("OUT_DIR").expect("cargo sets it"));
    let raw = fs::read_to_string(RAW).expect("the wrapper's source");
    rename(&archive, &out.join("libbefore.a"), &functions(&raw));
    println!("cargo::rustc-link-search=native={}", out.display());
    println!("cargo::rustc-link-lib=static=before");

    // What stands before the functions is about the crate.
    let at = raw.find("extern \"C\"").expect("the functions");
    let source = raw[at..].replace("watcher_", "before_");
    fs::write(out.join("raw.rs"), source).expect("a file in the folder for output");
}

/// The C functions, without `watcher_`.
fn functions(raw: &str) -> Vec<&str> {
    let names = raw.split("    fn watcher_").skip(1);
    names.filter_map(|rest| rest.split('(').next()).collect()
}

/// Copies an archive, with the functions called `before_..`.
fn rename(from: &Path, to: &Path, functions: &[&str]) {
    let mut copy = Command::new("objcopy");
    for name in functions {
        copy.arg(format!("--redefine-sym=watcher_{name}=before_{name}"));
    }
    let status = copy.arg(from).arg(to).status();
    if !status.is_ok_and(|status| status.success()) {
        println!("cargo::error=objcopy of {} failed", from.display());
    }
}

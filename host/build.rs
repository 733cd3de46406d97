//! Links the static library of the proved core, and says what tests can be made.
//!
//! The archive is looked for in `LPSPI_STATICLIB_DIR` if that is set,
//! otherwise in `../crates/c_api/out` beside this crate.
//!
//! Tests that need the original, one of the programs or the kit are ignored where it
//! is missing. Where `CI` is `true` nothing is ignored: without the original the tests
//! are not built, and those that need a missing program, or the kit, fail.

#[path = "original/build/place.rs"]
mod place;

use std::env;
use std::path::{Path, PathBuf};
use std::process::Command;

const DIR_VARIABLE: &str = "LPSPI_STATICLIB_DIR";

fn main() {
    let package = PathBuf::from(env::var_os("CARGO_MANIFEST_DIR").expect("set by cargo"));
    link(&package);
    find(&package);
}

fn link(package: &Path) {
    println!("cargo::rerun-if-env-changed={DIR_VARIABLE}");

    let dir = env::var_os(DIR_VARIABLE)
        .map_or_else(|| package.join("../crates/c_api/out"), PathBuf::from);
    let archive = dir.join("libc_api.a");
    println!("cargo::rerun-if-changed={}", archive.display());

    if archive.is_file() {
        println!("cargo::rustc-link-search=native={}", dir.display());
        println!("cargo::rustc-link-lib=static=c_api");
    } else {
        println!(
            "cargo::error={} is missing: run `rt lib` in crates/c_api first, \
             or set {DIR_VARIABLE} to the directory of libc_api.a",
            archive.display()
        );
    }
}

/// Looks for what tests need.
fn find(package: &Path) {
    println!("cargo::rustc-check-cfg=cfg(original)");

    if place::source(&package.join("original")).is_file() {
        println!("cargo::rustc-cfg=original");
    }
    for name in ["buslog", "lpspi", "trial"] {
        println!("cargo::rustc-check-cfg=cfg({name})");
        let program = package.join(format!("../crates/{name}/out/{name}"));
        println!("cargo::rerun-if-changed={}", program.display());
        if place::ci() || program.is_file() {
            println!("cargo::rustc-cfg={name}");
        }
    }
    println!("cargo::rustc-check-cfg=cfg(kit)");
    println!("cargo::rerun-if-env-changed=PATH");
    let kit = Command::new("rt").arg("version").output();
    if place::ci() || kit.is_ok_and(|said| said.status.success()) {
        println!("cargo::rustc-cfg=kit");
    }
}

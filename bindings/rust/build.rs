//! Finds the library: in the folder that `CBOR_DIAG_LIB_DIR` names, else in this repository's `dist/lib`, else where
//! `pkg-config` finds it (also below `~/.local`, where the README of the repository installs it), else where the
//! system's linker looks.

use std::env;
use std::path::{Path, PathBuf};
use std::process::Command;

fn main() {
    println!("cargo:rerun-if-env-changed=CBOR_DIAG_LIB_DIR");
    println!("cargo:rerun-if-env-changed=PKG_CONFIG_PATH");
    let named = env::var_os("CBOR_DIAG_LIB_DIR").map(PathBuf::from);
    let built = PathBuf::from(env::var_os("CARGO_MANIFEST_DIR").unwrap()).join("../../dist/lib");
    let built = Some(built).filter(|folder| static_library(folder).exists());
    let mut kind = "";
    if let Some(folder) = named.or(built).or_else(installed) {
        println!("cargo:rustc-link-search=native={}", folder.display());
        let library = static_library(&folder);
        if library.exists() {
            println!("cargo:rerun-if-changed={}", library.display());
            kind = "static=";
        }
    }
    println!("cargo:rustc-link-lib={kind}cbor_diag");
}

fn static_library(folder: &Path) -> PathBuf {
    folder.join("libcbor_diag.a")
}

/// The folder with the library, as `pkg-config` knows it.
fn installed() -> Option<PathBuf> {
    let known = env::var_os("PKG_CONFIG_PATH").unwrap_or_default();
    let home = env::var_os("HOME").map(|home| Path::new(&home).join(".local/lib/pkgconfig"));
    let paths = env::join_paths(env::split_paths(&known).chain(home)).ok()?;
    let found = Command::new("pkg-config")
        .args(["--variable=libdir", "cbor_diag"])
        .env("PKG_CONFIG_PATH", paths)
        .output()
        .ok()?;
    let folder = String::from_utf8(found.stdout).ok()?;
    (found.status.success() && !folder.trim().is_empty()).then(|| PathBuf::from(folder.trim()))
}

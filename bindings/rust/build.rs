//! Hands the linker the desk's archive, `libcapi.a`, or `libsabrentuglio.a` as
//! it is called where it is installed.
//!
//! It lies in `target/staticlib` at the repository's root, or in the folder
//! that SABRENTUGLIO_ARCHIVE_DIR names.
//!
//! A crate that depends on this one and has C of its own finds two folders in
//! its build script's environment: that of the archive in
//! DEP_SABRENTUGLIO_ARCHIVE_DIR, and that of the header in
//! DEP_SABRENTUGLIO_INCLUDE.

use std::env;
use std::path::{Path, PathBuf};
use std::process::exit;

const FOLDER: &str = "SABRENTUGLIO_ARCHIVE_DIR";

/// The archive's names, as built and as installed.
const NAMES: [&str; 2] = ["capi", "sabrentuglio"];

fn main() {
    println!("cargo:rerun-if-env-changed={}", FOLDER);
    let folder = match env::var_os(FOLDER) {
        Some(named) => PathBuf::from(named),
        None => manifest_folder().join("../../target/staticlib"),
    };
    let archive = |name: &str| folder.join(format!("lib{}.a", name));
    let name = NAMES.iter().find(|name| archive(name).is_file());
    let name = name.unwrap_or_else(|| {
        eprintln!(
            "{} is missing: run `scripts/build --library` at the repository's root, or name its folder in {}",
            archive(NAMES[0]).display(),
            FOLDER
        );
        exit(1);
    });
    println!("cargo:rerun-if-changed={}", archive(name).display());
    let folder = absolute(&folder);
    println!("cargo:rustc-link-search=native={}", folder.display());
    println!("cargo:rustc-link-lib=static={}", name);
    println!("cargo:archive_dir={}", folder.display());
    hand_on_header();
}

/// A copy of the crate alone has no header, and hands none on.
fn hand_on_header() {
    let include = manifest_folder().join("../../include");
    if include.join("sabrentuglio.h").is_file() {
        println!("cargo:include={}", absolute(&include).display());
    }
}

/// The linker and other build scripts run elsewhere, so that a relative name
/// would lead astray.
fn absolute(folder: &Path) -> PathBuf {
    folder.canonicalize().unwrap_or_else(|_| folder.to_owned())
}

fn manifest_folder() -> PathBuf {
    PathBuf::from(env::var_os("CARGO_MANIFEST_DIR").expect("cargo sets it"))
}

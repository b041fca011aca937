//! Finds the archives of the proved card, switch and player of logs, and of what
//! reads lengths and packets.

use std::env;
use std::path::{Path, PathBuf};
use std::process::exit;

/// The libraries, each under the name of the crate that it is built from.
const LIBRARIES: [&str; 4] = ["capi", "capi_switch", "capi_log", "capi_query"];

/// Names a folder that has the archives.
const VARIABLE: &str = "MUSGARENTO_LIB_DIR";

/// The folder of the archives: the one named by the variable, or the place
/// where `tools/archives` writes them.
fn folder() -> PathBuf {
    match env::var_os(VARIABLE) {
        Some(folder) => PathBuf::from(folder),
        None => {
            let package = env::var_os("CARGO_MANIFEST_DIR").expect("cargo sets it");
            PathBuf::from(package).join("../../target/staticlib")
        }
    }
}

/// Links a library's archive; says whether it is there.
fn link(folder: &Path, library: &str) -> bool {
    let archive = folder.join(format!("lib{library}.a"));
    println!("cargo:rerun-if-changed={}", archive.display());
    println!("cargo:rustc-link-lib=static={library}");
    if !archive.is_file() {
        eprintln!("{} is missing.", archive.display());
        eprintln!("`bash tools/archives`, in the top folder of the repository, builds it.");
        return false;
    }
    true
}

fn main() {
    println!("cargo:rerun-if-env-changed={VARIABLE}");
    let folder = folder();
    println!("cargo:rustc-link-search=native={}", folder.display());
    let missing = LIBRARIES.map(|library| !link(&folder, library));
    if missing.contains(&true) {
        eprintln!("{VARIABLE} names another folder that has all archives.");
        exit(1);
    }
}

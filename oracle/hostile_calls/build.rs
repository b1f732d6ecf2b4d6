//! Finds the static archive of the store, `libhost.a`, and has it linked.

use std::env;
use std::path::{Path, PathBuf};
use std::process::exit;

/// The environment variable that names the archive's folder.
const FOLDER: &str = "NGALOVUKI_LIB";

/// Where `rt lib`, run in `crates/host`, writes the archive, seen from this program's place in the repository.
const USUAL_FOLDER: &str = "../../crates/host/out";

/// The folder to look in.
fn folder() -> PathBuf {
    match env::var_os(FOLDER) {
        Some(folder) => PathBuf::from(folder),
        None => Path::new(&env::var_os("CARGO_MANIFEST_DIR").unwrap_or_default()).join(USUAL_FOLDER),
    }
}

fn main() {
    let folder = folder();
    let archive = folder.join("libhost.a");
    println!("cargo:rerun-if-env-changed={FOLDER}");
    println!("cargo:rerun-if-changed={}", archive.display());
    if !archive.is_file() {
        eprintln!("The store's archive is not at {}.", archive.display());
        eprintln!(
            "Run `rt lib` in crates/host, or set {FOLDER} to the folder that has libhost.a."
        );
        exit(1);
    }
    // The linker may run in another folder than this script, so it is told the whole path.
    let whole = folder.canonicalize().unwrap_or(folder);
    println!("cargo:rustc-link-search=native={}", whole.display());
    println!("cargo:rustc-link-lib=static=host");
}

//! Links the archive of the proved store, or says what is missing.
//!
//! The archive's name and folder stand here and nowhere else: a package that depends on this one is told the path, in the
//! variable `DEP_FRAME_STORE_ARCHIVE` of its own build script.

use std::env;
use std::path::Path;
use std::process::exit;

/// The library whose calls are exported; `tools/archive` names the archive for it.
const LIBRARY: &str = "frame_store";
const FOLDER_VARIABLE: &str = "FRAME_STORE_DIR";
const DEFAULT_FOLDER: &str = "../../target/staticlib";

fn main() {
    println!("cargo::rerun-if-env-changed={FOLDER_VARIABLE}");
    let package = env::var("CARGO_MANIFEST_DIR").expect("cargo names the package's folder");
    let target = env::var("TARGET").expect("cargo names the target");
    let named = env::var(FOLDER_VARIABLE).ok();
    // A relative folder counts from this package, wherever cargo was started.
    let folder = Path::new(&package).join(named.as_deref().unwrap_or(DEFAULT_FOLDER));
    if named.is_none() && !(target.starts_with("x86_64-") && target.contains("linux")) {
        missing(&format!(
            "`tools/archive` makes it for x86-64 Linux, and this is a build for {target}"
        ));
    }
    let archive = folder.join(format!("lib{LIBRARY}.a"));
    if !archive.is_file() {
        missing(&format!("{} is not there", archive.display()));
    }
    println!("cargo::rerun-if-changed={}", archive.display());
    println!("cargo::metadata=archive={}", archive.display());
    println!("cargo::rustc-link-search=native={}", folder.display());
    println!("cargo::rustc-link-lib=static={LIBRARY}");
}

fn missing(what: &str) -> ! {
    eprintln!("frame_store needs the archive lib{LIBRARY}.a with the proved calls, and {what}.");
    eprintln!("Make it with `tools/archive` in the repository, or let");
    eprintln!("{FOLDER_VARIABLE} name the folder that holds it.");
    exit(1)
}

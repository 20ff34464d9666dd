//! Tells cargo where libcodlinbell.a is: in the folder that CODLINBELL_LIB_DIR
//! names, or where the project's own build puts it.

use std::env;
use std::path::{Path, PathBuf};

const FOLDER: &str = "CODLINBELL_LIB_DIR";
const USUAL: &str = "../../target/staticlib";
const ARCHIVE: &str = "libcodlinbell.a";

fn main() {
    let folder = folder();
    let archive = folder.join(ARCHIVE);
    println!("cargo:rerun-if-env-changed={FOLDER}");
    println!("cargo:rerun-if-changed=build.rs");
    println!("cargo:rerun-if-changed={}", archive.display());
    println!("cargo:rustc-link-search=native={}", folder.display());
    println!("cargo:rustc-link-lib=static=codlinbell");
    if !archive.is_file() {
        println!(
            "cargo:warning={} isn't there; set {FOLDER}",
            archive.display()
        );
    }
}

/// A relative name counts from this crate's folder, not from where cargo was
/// started.
fn folder() -> PathBuf {
    let named = env::var_os(FOLDER).map_or_else(|| PathBuf::from(USUAL), PathBuf::from);
    let manifest = env::var_os("CARGO_MANIFEST_DIR").unwrap_or_default();
    Path::new(&manifest).join(named)
}

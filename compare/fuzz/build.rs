//! Links the target with libFuzzer, which brings `main`, and with the library
//! that tells its coverage where CODLINBELL_COVERED_DIR names its folder.

use std::env;
use std::path::Path;

const FOLDER: &str = "CODLINBELL_COVERED_DIR";
const ARCHIVE: &str = "libcodlinbell_covered.a";

fn main() {
    println!("cargo:rerun-if-changed=build.rs");
    println!("cargo:rerun-if-env-changed={FOLDER}");
    println!("cargo:rustc-check-cfg=cfg(covered)");
    if env::var_os("CARGO_FEATURE_TARGET").is_none() {
        return;
    }
    // Understood by clang, which `run` makes the linker.
    println!("cargo:rustc-link-arg-bins=-fsanitize=fuzzer");
    if let Ok(folder) = env::var(FOLDER) {
        let archive = Path::new(&folder).join(ARCHIVE);
        println!("cargo:rerun-if-changed={}", archive.display());
        println!("cargo:rustc-link-search=native={folder}");
        println!("cargo:rustc-link-lib=static=codlinbell_covered");
        println!("cargo:rustc-cfg=covered");
    }
}

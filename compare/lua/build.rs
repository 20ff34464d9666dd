//! Links Debian's liblua5.4 (package liblua5.4-dev).

fn main() {
    println!("cargo:rerun-if-changed=build.rs");
    println!("cargo:rustc-link-lib=dylib=lua5.4");
}

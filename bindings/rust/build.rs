//! Links the static libraries from RULFJEN_LIB_DIR, or from where `tools/libraries` leaves them.

use std::path::PathBuf;

fn main() {
    let default = || PathBuf::from(std::env::var_os("CARGO_MANIFEST_DIR").unwrap()).join("../../target/staticlib");
    let folder = std::env::var_os("RULFJEN_LIB_DIR").map_or_else(default, PathBuf::from);
    println!("cargo:rerun-if-env-changed=RULFJEN_LIB_DIR");
    println!("cargo:rustc-link-search=native={}", folder.display());
    let link = |library: &str| {
        println!("cargo:rerun-if-changed={}", folder.join(format!("lib{library}.a")).display());
        println!("cargo:rustc-link-lib=static={library}");
    };
    link("embed");
    if std::env::var_os("CARGO_FEATURE_COLUMNS").is_some() {
        link("embed_columns");
    }
    if std::env::var_os("CARGO_FEATURE_BOOKS").is_some() {
        link("embed_books");
    }
}

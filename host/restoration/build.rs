//! Links the proved library, `librestoration.a`: from the folder `RESTORATION_STATICLIB_DIR` if that is set,
//! else from the repository's `target/staticlib`, where `tools/library` writes it.

use std::{env, path::PathBuf};

fn main() {
    println!("cargo:rerun-if-env-changed=RESTORATION_STATICLIB_DIR");
    println!("cargo:rerun-if-changed=build.rs");
    let folder = env::var_os("RESTORATION_STATICLIB_DIR").map_or_else(
        || PathBuf::from(env!("CARGO_MANIFEST_DIR")).join("../../target/staticlib"),
        PathBuf::from,
    );
    let library = folder.join("librestoration.a");
    if !library.exists() {
        println!("cargo:warning=no librestoration.a: run `tools/library`");
    }
    println!("cargo:rerun-if-changed={}", library.display());
    println!("cargo:rustc-link-search=native={}", folder.display());
    println!("cargo:rustc-link-lib=static=restoration");
}

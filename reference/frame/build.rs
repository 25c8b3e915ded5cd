//! Checks the digests of the original's files in `RESTORATION_RUST_SRC`, and writes modules that compile
//! them.

use std::{env, fs, path::PathBuf};

fn main() {
    let folder = digests::checked_folder("crates/jxl-frame/src");
    let mut modules = String::new();
    for name in ["filter", "header"] {
        let file = folder.join(name).with_extension("rs");
        modules +=
            &format!("#[path = {file:?}]\n#[allow(clippy::all, warnings)]\npub mod {name};\n");
    }
    let out = PathBuf::from(env::var("OUT_DIR").unwrap()).join("modules.rs");
    fs::write(out, modules).unwrap();
}

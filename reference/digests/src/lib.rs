//! Compares the original's files with the digests in `original.sha256`, so that an altered copy is not
//! compiled. The list has each file that is compiled, whole or in part, as `sha256sum` prints it.

mod sha256;

use std::{
    env, fs,
    path::{Path, PathBuf},
    process,
};

const LIST: &str = include_str!("../original.sha256");

/// For a build script: checks the listed files in the folder `part` of the original,
/// `RESTORATION_RUST_SRC`, and answers that folder. The build runs again if one of the files changes. If
/// the folder or a file is missing or a file is altered, the build ends with an error that names it.
pub fn checked_folder(part: &str) -> PathBuf {
    println!("cargo::rerun-if-env-changed=RESTORATION_RUST_SRC");
    println!("cargo::rerun-if-changed=build.rs");
    folder_of(part).unwrap_or_else(|wrong| {
        println!("cargo::error={wrong}");
        process::exit(1)
    })
}

fn folder_of(part: &str) -> Result<PathBuf, String> {
    let root = env::var_os("RESTORATION_RUST_SRC").ok_or(
        "RESTORATION_RUST_SRC is not set: the folder that has crates/jxl-frame and crates/jxl-render",
    )?;
    let folder = Path::new(&root).join(part);
    let folder =
        fs::canonicalize(&folder).map_err(|error| format!("{}: {error}", folder.display()))?;
    for (name, _) in listed(part) {
        println!("cargo::rerun-if-changed={}", folder.join(name).display());
    }
    check(&folder, part)?;
    Ok(folder)
}

/// Checks that each file listed in `part` is in the folder and has its digest; the error names the file.
fn check(folder: &Path, part: &str) -> Result<(), String> {
    let mut files = listed(part).peekable();
    if files.peek().is_none() {
        return Err(format!("{part}: no file of it is listed"));
    }
    for (name, digest) in files {
        let file = folder.join(name);
        let bytes = fs::read(&file).map_err(|error| format!("{}: {error}", file.display()))?;
        let found = sha256::hex(&bytes);
        if found != digest {
            return Err(format!(
                "{}: not the original's file: its SHA-256 is {found}, the original's is {digest} \
                 (reference/digests/original.sha256)",
                file.display()
            ));
        }
    }
    Ok(())
}

/// The files listed in a folder, relative to it, with their digests.
fn listed(part: &str) -> impl Iterator<Item = (&'static str, &'static str)> {
    LIST.lines().filter_map(move |line| {
        let (digest, path) = line.split_once("  ").expect("a digest and a path");
        let name = path.strip_prefix(part)?.strip_prefix('/')?;
        Some((name, digest))
    })
}

#[cfg(test)]
mod tests {
    use super::*;

    const PART: &str = "crates/jxl-frame/src";

    /// A copy of the original's folder.
    fn copy(name: &str) -> PathBuf {
        let root = env::var("RESTORATION_RUST_SRC").expect("RESTORATION_RUST_SRC");
        let folder = env::temp_dir().join(format!("digests-{}-{name}", std::process::id()));
        fs::create_dir_all(&folder).unwrap();
        for (file, _) in listed(PART) {
            let from = Path::new(&root).join(PART).join(file);
            fs::copy(from, folder.join(file)).unwrap();
        }
        folder
    }

    #[test]
    fn a_true_copy_passes() {
        let folder = copy("true");
        assert_eq!(check(&folder, PART), Ok(()));
        fs::remove_dir_all(folder).unwrap();
    }

    #[test]
    fn an_altered_or_missing_file_is_named() {
        let folder = copy("altered");
        let file = folder.join("filter.rs");
        let mut bytes = fs::read(&file).unwrap();
        let last = bytes.len() - 1;
        bytes[last] ^= 1;
        fs::write(&file, bytes).unwrap();
        let altered = check(&folder, PART).unwrap_err();
        assert!(altered.contains("filter.rs: not the original's file"));
        fs::remove_file(&file).unwrap();
        let missing = check(&folder, PART).unwrap_err();
        assert!(missing.contains("filter.rs: "));
        fs::remove_dir_all(folder).unwrap();
    }

    #[test]
    fn a_folder_without_listed_files_is_refused() {
        assert!(check(Path::new("."), "crates/jxl").is_err());
    }
}

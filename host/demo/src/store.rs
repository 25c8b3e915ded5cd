//! Files that are written all or none, each of them whole.

use std::{
    fs::{self, File, OpenOptions, Permissions},
    io::{self, ErrorKind, Write},
    path::{self, Path, PathBuf},
    process,
};

use crate::error::{Error, quoted};

/// Writes each file under a temporary name in its target's folder, and renames them when all are
/// written. Links are followed; an existing file keeps its permissions.
pub fn all(files: &[(PathBuf, Vec<u8>)]) -> Result<(), Error> {
    let parts = files.iter().map(|(target, bytes)| {
        let part = Part::write(target, bytes);
        part.map_err(|error| not_written(target, &error))
    });
    name(parts.collect::<Result<_, _>>()?)
}

/// All files in a folder, which is created if absent, and others elsewhere.
pub fn all_in(
    folder: &Path,
    files: Vec<(&str, Vec<u8>)>,
    others: impl IntoIterator<Item = (PathBuf, Vec<u8>)>,
) -> Result<(), Error> {
    let made = fs::create_dir(folder);
    match &made {
        Err(error) if !folder.is_dir() => return Err(not_written(folder, error)),
        _ => {}
    }
    let inside = |(name, bytes): (&str, _)| (folder.join(name), bytes);
    let files: Vec<_> = files.into_iter().map(inside).chain(others).collect();
    let stored = all(&files);
    if stored.is_err() && made.is_ok() {
        // The first error is the one to report.
        let _ = fs::remove_dir(folder);
    }
    stored
}

/// Rejects a cut file that would replace a file that is to be kept.
pub fn check_cut(cut: &Path, kept: &Path) -> Result<(), Error> {
    let place = |file| path::absolute(file).ok().and_then(|path| followed(&path));
    let (at, kept_at) = (place(cut), place(kept));
    if at.is_none() || at != kept_at {
        return Ok(());
    }
    let (cut, kept) = (quoted(cut), quoted(kept));
    let what = format!("{cut}: the cut file must not replace {kept}");
    Err(Error::invalid(what))
}

/// Where a path leads, its links followed. What is absent is to be made under its own name.
fn followed(path: &Path) -> Option<PathBuf> {
    let absent = || {
        let folder = followed(path.parent()?)?;
        match path.file_name() {
            Some(name) => Some(folder.join(name)),
            // It ends in `..`.
            None => folder.parent().map(Path::to_path_buf),
        }
    };
    path.canonicalize().ok().or_else(absent)
}

/// A written file that is to get its target's name. Dropped before `Stays`, it leaves the folder as it
/// was.
struct Part {
    target: PathBuf,
    new: PathBuf,
    /// The temporary name of the file that the target replaces.
    old: PathBuf,
    stage: Stage,
}

enum Stage {
    Written,
    Named,
    Stays,
}

/// The last file is renamed in one step, so that a single one is never absent.
fn name(mut parts: Vec<Part>) -> Result<(), Error> {
    let last = parts.len().saturating_sub(1);
    let named = parts.iter_mut().enumerate().try_for_each(|(n, part)| {
        let named = part.name(n == last);
        named.map_err(|error| not_written(&part.target, &error))
    });
    match named {
        Ok(()) => parts.iter_mut().for_each(|part| part.stage = Stage::Stays),
        // Dropped last to first, since several links may lead to one target.
        Err(_) => parts.reverse(),
    }
    named
}

impl Part {
    fn write(target: &Path, bytes: &[u8]) -> io::Result<Self> {
        let (target, permissions) = resolved(target)?;
        let (new, mut file) = new_beside(&target)?;
        let part = Self {
            old: new.with_extension("old"),
            new,
            target,
            stage: Stage::Written,
        };
        file.write_all(bytes)?;
        permissions.map_or(Ok(()), |permissions| file.set_permissions(permissions))?;
        Ok(part)
    }

    fn name(&mut self, at_once: bool) -> io::Result<()> {
        if !at_once && self.target.exists() {
            fs::rename(&self.target, &self.old)?;
        }
        fs::rename(&self.new, &self.target)?;
        self.stage = Stage::Named;
        Ok(())
    }
}

impl Drop for Part {
    /// Errors are ignored: some of these files do not exist.
    fn drop(&mut self) {
        let unneeded = match self.stage {
            Stage::Written => &self.new,
            Stage::Named => &self.target,
            Stage::Stays => &self.old,
        };
        let _ = fs::remove_file(unneeded);
        if !matches!(self.stage, Stage::Stays) {
            let _ = fs::rename(&self.old, &self.target);
        }
    }
}

/// Where a target is, and its permissions if it exists; it is then a writable file.
fn resolved(target: &Path) -> io::Result<(PathBuf, Option<Permissions>)> {
    match fs::metadata(target) {
        Ok(found) if !found.is_file() => Err(io::Error::other("not a regular file")),
        Ok(found) => {
            OpenOptions::new().write(true).open(target)?;
            Ok((target.canonicalize()?, Some(found.permissions())))
        }
        Err(error) if error.kind() == ErrorKind::NotFound && !target.is_symlink() => {
            Ok((target.into(), None))
        }
        Err(error) => Err(error),
    }
}

/// A new file under a short, unused name in the target's folder.
fn new_beside(target: &Path) -> io::Result<(PathBuf, File)> {
    let mut n = 0;
    loop {
        let path = target.with_file_name(format!(".restoration-{}-{n}.part", process::id()));
        match File::create_new(&path) {
            Err(error) if error.kind() == ErrorKind::AlreadyExists => n += 1,
            made => return Ok((path, made?)),
        }
    }
}

fn not_written(target: &Path, error: &io::Error) -> Error {
    Error::cannot_write(quoted(target), error)
}

#[cfg(test)]
mod tests {
    use super::*;

    /// A target whose rename fails after all are written.
    #[test]
    fn a_failed_rename_leaves_all_as_it_was() {
        let folder = std::env::temp_dir().join(format!("restoration-store-{}", process::id()));
        fs::create_dir(&folder).unwrap();
        fs::write(folder.join("old"), "as it was").unwrap();
        let part = |name| Part::write(&folder.join(name), b"new").unwrap();
        let parts = ["old", "new", "old", "taken"].map(part);
        fs::create_dir(folder.join("taken")).unwrap();
        assert!(name(parts.into()).is_err());
        let entries = fs::read_dir(&folder).unwrap();
        let mut names: Vec<_> = entries.map(|entry| entry.unwrap().file_name()).collect();
        names.sort();
        assert_eq!(names, ["old", "taken"]);
        assert_eq!(fs::read(folder.join("old")).unwrap(), b"as it was");
        fs::remove_dir_all(&folder).unwrap();
    }
}

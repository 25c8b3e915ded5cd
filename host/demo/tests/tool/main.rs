//! The built tool, run in a temporary folder.

mod cut;
mod grey;
mod refused;
mod shown;
mod smoothed;
mod stored;
mod streams;

use std::{
    fs::{self, File},
    path::{Path, PathBuf},
    process::{Command, Output},
};

/// A folder that exists while a test runs.
struct Folder(PathBuf);

impl Folder {
    fn new(test: &str) -> Self {
        let folder = Path::new(env!("CARGO_TARGET_TMPDIR")).join(test);
        let _ = fs::remove_dir_all(&folder);
        fs::create_dir_all(&folder).unwrap();
        Self(folder)
    }

    fn write(&self, name: &str, bytes: &[u8]) {
        fs::write(self.0.join(name), bytes).unwrap();
    }

    fn read(&self, name: &str) -> Vec<u8> {
        fs::read(self.0.join(name)).unwrap()
    }

    /// The names in it, in order.
    fn names(&self) -> Vec<String> {
        Self::names_in(&self.0)
    }

    fn names_in(folder: &Path) -> Vec<String> {
        let entries = fs::read_dir(folder).unwrap();
        let name = |entry: fs::DirEntry| entry.file_name().into_string().unwrap();
        let mut names: Vec<String> = entries.map(|entry| name(entry.unwrap())).collect();
        names.sort();
        names
    }

    fn run(&self, words: &[&str]) -> Output {
        let mut tool = Command::new(env!("CARGO_BIN_EXE_demo"));
        tool.current_dir(&self.0).args(words).output().unwrap()
    }

    /// With a file or folder of this one as standard input.
    fn run_on(&self, input: &str, words: &[&str]) -> Output {
        let input = File::open(self.0.join(input)).unwrap();
        let mut tool = Command::new(env!("CARGO_BIN_EXE_demo"));
        tool.current_dir(&self.0).args(words).stdin(input);
        tool.output().unwrap()
    }

    /// With files limited to 1,024 bytes.
    fn run_with_short_files(&self, words: &[&str]) -> Output {
        self.run_after("trap '' XFSZ; ulimit -f 1; exec \"$0\" \"$@\"", words)
    }

    /// With a full disk as standard output and standard error.
    fn run_unheard(&self, words: &[&str]) -> Output {
        self.run_after("exec \"$0\" \"$@\" >/dev/full 2>&1", words)
    }

    fn run_after(&self, script: &str, words: &[&str]) -> Output {
        let mut shell = Command::new("bash");
        shell.args(["-c", script, env!("CARGO_BIN_EXE_demo")]);
        shell.current_dir(&self.0).args(words).output().unwrap()
    }
}

impl Drop for Folder {
    fn drop(&mut self) {
        let _ = fs::remove_dir_all(&self.0);
    }
}

/// A PFM file of three planes whose samples are these bits, little-endian.
fn pfm(width: usize, height: usize, samples: impl IntoIterator<Item = u32>) -> Vec<u8> {
    pfm_with("PF", width, height, samples)
}

/// The same of one plane.
fn grey_pfm(width: usize, height: usize, samples: impl IntoIterator<Item = u32>) -> Vec<u8> {
    pfm_with("Pf", width, height, samples)
}

fn pfm_with(
    magic: &str,
    width: usize,
    height: usize,
    samples: impl IntoIterator<Item = u32>,
) -> Vec<u8> {
    let mut file = format!("{magic}\n{width} {height}\n-1.0\n").into_bytes();
    file.extend(samples.into_iter().flat_map(u32::to_le_bytes));
    file
}

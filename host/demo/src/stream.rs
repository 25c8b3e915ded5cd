//! Where a picture comes from and where it goes: a file, or `-` for standard input and output.

use std::{
    ffi::OsString,
    fs::File,
    io::{self, Read, Write},
    path::PathBuf,
};

use restoration::MAX_SAMPLES;

use crate::{
    error::{Error, quoted},
    store,
};

/// More bytes than the file of any picture that is accepted: its samples and a header.
const MOST_BYTES: usize = 4 * MAX_SAMPLES + 65_536;

pub enum Stream {
    Standard,
    File(PathBuf),
}

impl From<OsString> for Stream {
    fn from(word: OsString) -> Self {
        if word == "-" {
            return Self::Standard;
        }
        Self::File(word.into())
    }
}

impl Stream {
    /// The name of an input in messages.
    pub fn input_name(&self) -> String {
        match self {
            Self::Standard => "standard input".into(),
            Self::File(path) => quoted(path),
        }
    }

    pub fn read(&self) -> Result<Vec<u8>, Error> {
        let read = match self {
            Self::Standard => bytes(io::stdin().lock()),
            Self::File(path) => File::open(path).and_then(bytes),
        };
        read.map_err(|error| Error::cannot_read(self.input_name(), &error))
    }

    /// The output for this input if none is given: a file beside it, or standard output.
    pub fn default_output(&self) -> Self {
        let Self::File(path) = self else {
            return Self::Standard;
        };
        let mut name = path.file_stem().unwrap_or_default().to_os_string();
        name.push("-smoothed.pfm");
        Self::File(path.with_file_name(name))
    }

    /// Writes a file whole or not at all.
    pub fn write(&self, bytes: Vec<u8>) -> Result<(), Error> {
        let Self::File(path) = self else {
            let written = write_standard(&bytes);
            return written.map_err(|error| Error::cannot_write("standard output", &error));
        };
        store::all(&[(path.clone(), bytes)])
    }
}

fn bytes(source: impl Read) -> io::Result<Vec<u8>> {
    let mut bytes = Vec::new();
    source.take(MOST_BYTES as u64).read_to_end(&mut bytes)?;
    Ok(bytes)
}

fn write_standard(bytes: &[u8]) -> io::Result<()> {
    let mut output = io::stdout().lock();
    output.write_all(bytes)?;
    output.flush()
}

//! The command line.

use std::{
    ffi::{OsStr, OsString},
    os::unix::ffi::OsStrExt,
    path::PathBuf,
};

use restoration::{CHANNELS, GREY_PLANES, PLANES, Region};

use crate::{
    error::{Error, quoted},
    number,
    stream::Stream,
};

/// `./demo --help` prints the same file without a built tool.
pub const HELP: &str = include_str!("../usage.txt");

/// The library's limit.
const MOST_ITERS: u32 = 3;

pub enum Command {
    Help,
    Version,
    Show(BuiltIn),
    Smooth(Job),
}

/// The built-in picture to smooth.
pub struct BuiltIn {
    /// How many planes it has.
    pub planes: u32,
    /// Where its files are written.
    pub folder: PathBuf,
    /// Where its rectangles are written too.
    pub cut: Option<PathBuf>,
}

/// A picture to smooth.
pub struct Job {
    pub input: Stream,
    pub output: Output,
    pub filters: Chosen,
}

pub enum Output {
    /// The picture, or a rectangle of it.
    Picture(Stream, Option<Rect>),
    /// These rectangles, or if there are none the whole picture, in a cut file.
    Cut(PathBuf, Vec<Rect>),
}

/// A rectangle, and the text that it was given as.
pub struct Rect {
    pub region: Region,
    pub text: String,
}

/// The settings that were given; the others are a header's defaults.
#[derive(Default)]
pub struct Chosen {
    pub gabor: Option<GaborChoice>,
    pub iters: Option<u32>,
    pub sigma: Option<f32>,
}

pub enum GaborChoice {
    Off,
    Weights([[f32; 2]; CHANNELS]),
}

#[derive(Default)]
struct Given {
    picture: Option<OsString>,
    output: Option<OsString>,
    cut: Option<OsString>,
    rects: Vec<Rect>,
    filters: Chosen,
    grey: bool,
}

pub fn parse(mut words: impl Iterator<Item = OsString>) -> Result<Command, Error> {
    let mut given = Given::default();
    while let Some(word) = words.next() {
        match word.as_bytes() {
            b"--help" | b"-h" => return Ok(Command::Help),
            b"--version" => return Ok(Command::Version),
            b"--" => words.by_ref().try_for_each(|word| given.argument(word))?,
            [b'-', _, ..] => given.option(&word, &mut words)?,
            _ => given.argument(word)?,
        }
    }
    given.command()
}

impl Given {
    fn argument(&mut self, word: OsString) -> Result<(), Error> {
        if self.picture.is_some() {
            return Err(Error::usage(format!("extra argument {}", quoted(word))));
        }
        self.picture = Some(word);
        Ok(())
    }

    fn option(
        &mut self,
        word: &OsStr,
        rest: &mut dyn Iterator<Item = OsString>,
    ) -> Result<(), Error> {
        let (name, attached) = split(word);
        let mut value = || {
            let missing = || Error::usage(format!("option {} needs a value", quoted(name)));
            let attached = attached.map(OsStr::to_os_string);
            attached.or_else(|| rest.next()).ok_or_else(missing)
        };
        match name.as_bytes() {
            b"-o" | b"--output" => self.output = Some(value()?),
            b"--cut" => self.cut = Some(value()?),
            b"--rect" => self.rects.push(read(name, &value()?, RECT)?),
            b"--gabor" => self.filters.gabor = Some(read(name, &value()?, WEIGHTS)?),
            b"--iters" => self.filters.iters = Some(read(name, &value()?, ITERS)?),
            b"--sigma" => self.filters.sigma = Some(read(name, &value()?, SIGMA)?),
            b"--no-gabor" | b"--grey" | b"--help" | b"--version" if attached.is_some() => {
                let what = format!("option {} takes no value", quoted(name));
                return Err(Error::usage(what));
            }
            b"--no-gabor" => self.filters.gabor = Some(GaborChoice::Off),
            b"--grey" => self.grey = true,
            _ => return Err(Error::usage(format!("unknown option {}", quoted(name)))),
        }
        Ok(())
    }

    fn command(mut self) -> Result<Command, Error> {
        let cut = self.cut_file()?;
        let Some(picture) = self.picture.take() else {
            return self.show(cut);
        };
        if self.grey {
            return Err(Error::usage("--grey is for the built-in picture"));
        }
        let input = Stream::from(picture);
        let output = match (self.output.map(Stream::from), cut) {
            (Some(_), Some(_)) => {
                return Err(Error::usage("--cut and -o: a picture has one output"));
            }
            (None, Some(file)) => Output::Cut(file, self.rects),
            // The last rectangle counts.
            (output, None) => {
                let output = output.unwrap_or_else(|| input.default_output());
                Output::Picture(output, self.rects.pop())
            }
        };
        Ok(Command::Smooth(Job {
            input,
            output,
            filters: self.filters,
        }))
    }

    /// The cut file, which is read back and so is no stream.
    fn cut_file(&mut self) -> Result<Option<PathBuf>, Error> {
        match self.cut.take() {
            Some(file) if file == "-" => Err(Error::usage("--cut -: must be a file")),
            file => Ok(file.map(PathBuf::from)),
        }
    }

    fn show(self, cut: Option<PathBuf>) -> Result<Command, Error> {
        if let Some(option) = self.picture_option() {
            return Err(Error::usage(format!("{option} needs a picture")));
        }
        match self.output {
            Some(output) if output == "-" => Err(Error::usage(
                "-o -: must be a folder if no picture is given",
            )),
            output => {
                let folder = output.unwrap_or("demo-out".into()).into();
                let planes = if self.grey { GREY_PLANES } else { PLANES };
                Ok(Command::Show(BuiltIn {
                    planes,
                    folder,
                    cut,
                }))
            }
        }
    }

    /// An option that was given and applies to a picture.
    fn picture_option(&self) -> Option<&'static str> {
        let Chosen {
            gabor,
            iters,
            sigma,
        } = &self.filters;
        let options = [
            ("--rect", !self.rects.is_empty()),
            ("--no-gabor", matches!(gabor, Some(GaborChoice::Off))),
            ("--gabor", gabor.is_some()),
            ("--iters", iters.is_some()),
            ("--sigma", sigma.is_some()),
        ];
        let given = options.into_iter().find(|(_, given)| *given);
        given.map(|(option, _)| option)
    }
}

/// The name and the value of `--name=value`.
fn split(word: &OsStr) -> (&OsStr, Option<&OsStr>) {
    let bytes = word.as_bytes();
    let equals = bytes.iter().position(|byte| *byte == b'=');
    let Some(at) = equals.filter(|_| bytes.starts_with(b"--")) else {
        return (word, None);
    };
    let (name, value) = (&bytes[..at], &bytes[at + 1..]);
    (OsStr::from_bytes(name), Some(OsStr::from_bytes(value)))
}

/// What an option's value must be, and how it is read.
type Form<T> = (&'static str, fn(&str) -> Option<T>);

const RECT: Form<Rect> = ("LEFT,TOP,WIDTH,HEIGHT in whole numbers", rect);
const WEIGHTS: Form<GaborChoice> = ("SIDE,CORNER, or six numbers, two per plane", weights);
const ITERS: Form<u32> = ("0 to 3", iters);
const SIGMA: Form<f32> = ("a number", float);

fn read<T>(option: &OsStr, text: &OsStr, (must, form): Form<T>) -> Result<T, Error> {
    let wrong = || {
        let (option, text) = (option.display(), shown(text));
        Error::invalid(format!("{option} {text}: must be {must}"))
    };
    text.to_str().and_then(form).ok_or_else(wrong)
}

/// A value as it is, or in quotes where it is not one plain word.
fn shown(text: &OsStr) -> String {
    let plain = |byte: &u8| byte.is_ascii_graphic() && !b"'\"\\".contains(byte);
    match text.to_str() {
        Some(text) if !text.is_empty() && text.as_bytes().iter().all(plain) => text.into(),
        _ => quoted(text),
    }
}

fn rect(text: &str) -> Option<Rect> {
    let words: Vec<&str> = text.split(',').collect();
    let [left, top, width, height] = words[..] else {
        return None;
    };
    let region = Region {
        left: number::corner(left)?,
        top: number::corner(top)?,
        width: number::count(width)?,
        height: number::count(height)?,
    };
    Some(Rect {
        region,
        text: text.into(),
    })
}

fn weights(text: &str) -> Option<GaborChoice> {
    let numbers: Option<Vec<f32>> = text.split(',').map(float).collect();
    let weights = match numbers?[..] {
        [side, corner] => [[side, corner]; CHANNELS],
        [a, b, c, d, e, f] => [[a, b], [c, d], [e, f]],
        _ => return None,
    };
    Some(GaborChoice::Weights(weights))
}

fn iters(text: &str) -> Option<u32> {
    number::count(text).filter(|iters| *iters <= MOST_ITERS)
}

fn float(text: &str) -> Option<f32> {
    text.parse().ok()
}

#[cfg(test)]
mod tests {
    use super::*;
    use crate::smooth;

    /// The tool's limit is the library's.
    #[test]
    fn the_library_takes_up_to_the_most_iterations() {
        let margin = |iters| {
            let chosen = Chosen {
                iters: Some(iters),
                ..Chosen::default()
            };
            restoration::margin(smooth::settings(&chosen)).value()
        };
        assert!(margin(MOST_ITERS).is_ok());
        assert!(margin(MOST_ITERS + 1).is_err());
        assert!(ITERS.0.ends_with(&MOST_ITERS.to_string()));
    }
}

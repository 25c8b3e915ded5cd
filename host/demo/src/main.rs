//! Smooths a picture with the proved library: the built-in one, to show that rectangles laid edge to
//! edge have the whole picture's samples, or a PFM file.

/// Prints a line. A reader that is gone is no error.
macro_rules! say {
    ($($line:tt)*) => {{
        use std::io::Write as _;
        let _ = writeln!(std::io::stdout(), $($line)*);
    }};
}

mod cut;
mod engraving;
mod error;
mod lettering;
mod number;
mod options;
#[cfg(feature = "original")]
mod original;
mod pfm;
mod picture;
mod png;
mod progress;
mod rectangles;
mod show;
mod smooth;
mod store;
mod stream;

use std::{
    env,
    io::{self, Write},
    process::ExitCode,
};

use cut::Cut;
use error::{Error, Of, quoted};
use options::{Command, Job, Output, Rect};
use picture::Picture;
use restoration::{Refusal, Region};
use smooth::Filters;
use stream::Stream;

const DIFFERENT: u8 = 1;
const FAILED: u8 = 2;

fn main() -> ExitCode {
    match run() {
        Ok(true) => ExitCode::SUCCESS,
        Ok(false) => DIFFERENT.into(),
        Err(error) => {
            // If the line cannot be printed, there is still the exit status.
            let _ = writeln!(io::stderr(), "demo: {error}");
            FAILED.into()
        }
    }
}

/// Whether all compared samples agree.
fn run() -> Result<bool, Error> {
    match options::parse(env::args_os().skip(1))? {
        Command::Help => say!("{}", options::HELP.trim_end()),
        Command::Version => say!("demo {}", env!("CARGO_PKG_VERSION")),
        Command::Show(picture) => return show::show(picture),
        Command::Smooth(job) => return smooth_file(job),
    }
    Ok(true)
}

fn smooth_file(job: Job) -> Result<bool, Error> {
    let name = job.input.input_name();
    let invalid = |what| Error::invalid(format!("{name}: {what}"));
    let file = pfm::parse(job.input.read()?).map_err(invalid)?;
    smooth::check_regions(file.region, file.region).of(|| format!("{name} ({})", file.sides))?;
    let (picture, scale) = file.picture().map_err(invalid)?;
    let filters = Filters::of_one_sigma(picture.region, smooth::settings(&job.filters));
    let filters = filters.of(|| name.clone())?;
    match job.output {
        Output::Picture(output, rect) => {
            let part = part(picture.region, rect)?;
            let smooth = smoothed(picture, part, &filters).of(|| name.clone())?;
            output.write(pfm::bytes(&smooth, &scale))?;
            say_written(&output, part);
            Ok(true)
        }
        Output::Cut(path, rects) => {
            let parts = parts(picture.region, rects)?;
            let subject = || format!("{} ({})", quoted(&path), cut::counted(parts.len()));
            if let Stream::File(input) = &job.input {
                store::check_cut(&path, input)?;
            }
            cut::check(&parts, picture.plane_count()).of(subject)?;
            let smooth = rectangles::smoothed(&picture, &filters, &parts).of(|| name.clone())?;
            let cut = Cut::new(&smooth).of(subject)?;
            let said = format!("wrote {}: {}", quoted(&path), cut.summary());
            let agrees = cut.agrees();
            Stream::File(path).write(cut.bytes)?;
            say!("{said}");
            Ok(agrees)
        }
    }
}

fn say_written(output: &Stream, part: Region) {
    let Stream::File(path) = output else {
        return;
    };
    let Region {
        left,
        top,
        width,
        height,
    } = part;
    let path = quoted(path);
    say!("wrote {path}: {width} x {height} at {left}, {top}");
}

/// The rectangles of a picture to smooth, or all of it.
fn parts(picture: Region, rects: Vec<Rect>) -> Result<Vec<Region>, Error> {
    if rects.is_empty() {
        return Ok(vec![picture]);
    }
    rects
        .into_iter()
        .map(|rect| part(picture, Some(rect)))
        .collect()
}

/// The part of a picture to smooth.
fn part(picture: Region, rect: Option<Rect>) -> Result<Region, Error> {
    let Some(rect) = rect else {
        return Ok(picture);
    };
    smooth::check_regions(picture, rect.region).of(|| format!("--rect {}", rect.text))?;
    Ok(rect.region)
}

fn smoothed(picture: Picture, part: Region, filters: &Filters) -> Result<Picture, Refusal> {
    if part == picture.region {
        return filters.smooth(picture);
    }
    filters.last_part(picture, part)
}

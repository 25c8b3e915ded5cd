//! The built-in picture, smoothed whole and in rectangles laid edge to edge.

use std::{hint::black_box, time::Instant};

use restoration::{CHANNELS, GREY_PLANES, Refusal, Region};

use crate::{
    cut::Cut,
    engraving,
    error::{Error, Of, quoted},
    number::grouped,
    options::{BuiltIn, Chosen},
    picture::{Picture, differing},
    png,
    rectangles::{SIDES, lay, rectangles, smoothed},
    smooth::{self, Filters},
    store,
};

/// Times are the best of this many runs.
const RUNS: u32 = 10;
/// Brightness of the picture under the seams, and of the faintest seam.
const DARK: f32 = 0.3;
const FAINT: f32 = 0.4;

/// The files that are written.
const NAMES: [&str; 3] = ["before.png", "after.png", "seams.png"];

/// Names and bytes.
type Files = Vec<(&'static str, Vec<u8>)>;

/// Whether all compared samples agree. Nothing is printed before all files are written.
pub fn show(picture: BuiltIn) -> Result<bool, Error> {
    let BuiltIn {
        planes,
        folder,
        cut,
    } = picture;
    if let Some(cut) = &cut {
        NAMES
            .iter()
            .try_for_each(|name| store::check_cut(cut, &folder.join(name)))?;
    }
    let mut shown = Shown::new(planes);
    let (mut agree, files) = shown.files().of(|| "built-in picture".into())?;
    let mut others = Vec::new();
    if let Some(path) = cut {
        let file = shown.cut_file().of(|| quoted(&path))?;
        agree &= file.agrees();
        shown.say(format!("cut file    {}: {}", quoted(&path), file.summary()));
        others.push((path, file.bytes));
    }
    store::all_in(&folder, files, others)?;
    shown.say(format!(
        "written     {} (wrong samples in red) in {}",
        NAMES.join(", "),
        quoted(&folder)
    ));
    say!("{}", shown.lines.join("\n"));
    Ok(agree)
}

/// The picture, its settings, and the lines to print.
struct Shown {
    picture: Picture,
    filters: Filters,
    lines: Vec<String>,
}

impl Shown {
    fn new(planes: u32) -> Self {
        let picture = engraving::picture(planes);
        let (width, height, grids) = engraving::sigmas();
        let filters = Filters {
            settings: smooth::settings(&Chosen::default()),
            frame: smooth::frame(picture.region),
            table: vec![1, width, height],
            grids,
        };
        Self {
            picture,
            filters,
            lines: Vec::new(),
        }
    }

    fn is_grey(&self) -> bool {
        self.picture.plane_count() == GREY_PLANES
    }

    fn say(&mut self, line: String) {
        self.lines.push(line);
    }

    /// Whether all compared samples agree, and the files to write.
    fn files(&mut self) -> Result<(bool, Files), Refusal> {
        self.say_settings()?;
        let whole = self.whole()?;
        let rectangles = self.in_rectangles(&whole)?;
        let original = self.by_original(&whole);
        let seams = self.seams(&whole)?;
        let pictures = [pixels(&self.picture), pixels(&whole), seams];
        let file = |pixels: Vec<_>| png::bytes(whole.region.width, &pixels);
        let files = NAMES.into_iter().zip(pictures.map(file)).collect();
        Ok((rectangles && original, files))
    }

    fn say_settings(&mut self) -> Result<(), Refusal> {
        let Region { width, height, .. } = self.picture.region;
        let restoration::Settings { gabor, epf, .. } = self.filters.settings;
        let ([side, corner], iters) = (gabor.weights[0], epf.iters);
        let sigmas = self.filters.grids.iter().copied();
        let least = sigmas.clone().fold(f32::INFINITY, f32::min);
        let most = sigmas.fold(0.0, f32::max);
        let margin = self.filters.margin()?;
        let planes = if self.is_grey() {
            "one plane"
        } else {
            "three planes"
        };
        self.lines.extend([
            format!("picture     {width} x {height}, {planes}: noisy sky, hatching, lettering"),
            format!("settings    Gabor-like filter: weights {side} and {corner}"),
            format!("            edge-preserving filter: {iters} iterations, sigma {least} to {most} by block"),
            format!("            margin: {margin} samples"),
        ]);
        Ok(())
    }

    fn whole(&mut self) -> Result<Picture, Refusal> {
        let (whole, time) = timed(|| self.filters.smooth(self.picture.clone()));
        self.say(format!("whole       {time:.1} ms"));
        whole
    }

    fn in_rectangles(&mut self, whole: &Picture) -> Result<bool, Refusal> {
        let part = |part| self.filters.part(&self.picture, part);
        let (laid, time) = timed(|| lay(&self.picture, part));
        let count = rectangles(self.picture.region).len();
        let (width, height) = SIDES;
        self.say(format!(
            "rectangles  {count} of up to {width} x {height}, edge to edge: {time:.1} ms"
        ));
        self.say("            each extended by the margin, left and top aligned to blocks".into());
        Ok(self.compare("compared", "whole picture", &laid?, whole))
    }

    /// The smoothed rectangles in a cut file.
    fn cut_file(&self) -> Result<Cut, Refusal> {
        let parts = rectangles(self.picture.region);
        Cut::new(&smoothed(&self.picture, &self.filters, &parts)?)
    }

    /// Counts the samples that differ; none should.
    fn compare(&mut self, name: &str, with: &str, given: &Picture, whole: &Picture) -> bool {
        let differing = differing(&given.planes, &whole.planes);
        let samples = grouped(whole.planes.len());
        self.say(format!(
            "{name:12}{samples} samples with the {with}'s, bit by bit: {differing} differ"
        ));
        differing == 0
    }

    #[cfg(feature = "original")]
    fn by_original(&mut self, whole: &Picture) -> bool {
        let (given, time) = timed(|| crate::original::smooth(&self.filters, &self.picture));
        let beside = if self.is_grey() {
            " beside two planes of zeros"
        } else {
            ""
        };
        self.say(format!(
            "original    {time:.1} ms for the whole picture{beside} (jxl-oxide)"
        ));
        self.compare("", "original", &given, whole)
    }

    #[cfg(not(feature = "original"))]
    fn by_original(&mut self, _: &Picture) -> bool {
        self.say("original    not found: nothing to compare with (RESTORATION_RUST_SRC)".into());
        true
    }

    /// The samples that a margin one too few gets wrong, over the darkened smoothed picture.
    fn seams(&mut self, whole: &Picture) -> Result<Vec<[u8; CHANNELS]>, Refusal> {
        let margin = self.filters.margin()? - 1;
        let less = |part| self.filters.part_with_less(&self.picture, part);
        let laid = lay(&self.picture, less)?;
        let apart: Vec<f32> = laid.pixels().zip(whole.pixels()).map(apart).collect();
        let most = apart.iter().copied().fold(0.0, f32::max);
        let differing = grouped(differing(&laid.planes, &whole.planes));
        self.say(format!(
            "margin {margin}    one too few: {differing} samples wrong, by up to {most:.1e}"
        ));
        let seam = |([red, green, blue], apart): ([f32; CHANNELS], f32)| {
            let seam = if apart > 0.0 {
                FAINT + apart / most
            } else {
                0.0
            };
            [DARK * red + seam, DARK * green, DARK * blue].map(level)
        };
        Ok(whole.pixels().zip(apart).map(seam).collect())
    }
}

/// The largest difference at a pixel.
fn apart((a, b): ([f32; CHANNELS], [f32; CHANNELS])) -> f32 {
    let apart = a.iter().zip(b).map(|(a, b)| (a - b).abs());
    apart.fold(0.0, f32::max)
}

fn pixels(picture: &Picture) -> Vec<[u8; CHANNELS]> {
    picture.pixels().map(|pixel| pixel.map(level)).collect()
}

/// A sample from 0 to 1 as a byte.
fn level(sample: f32) -> u8 {
    (sample.clamp(0.0, 1.0) * 255.0).round() as u8
}

/// A result and the shortest of several times, in milliseconds.
fn timed<T>(mut run: impl FnMut() -> T) -> (T, f64) {
    let mut shortest = f64::INFINITY;
    let mut once = || {
        let began = Instant::now();
        let outcome = black_box(run());
        shortest = shortest.min(began.elapsed().as_secs_f64() * 1e3);
        outcome
    };
    for _ in 1..RUNS {
        once();
    }
    (once(), shortest)
}

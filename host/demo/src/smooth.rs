//! Whole pictures and rectangles smoothed by the proved library.

use restoration::{
    Frame, GREY_PLANES, Loupe, LoupeSetup, MAX_AREA, Refusal, Region, Settings, Setup, Smoothing,
};

use crate::{
    options::{Chosen, GaborChoice},
    picture::{Picture, at_corner},
    progress::Bar,
};

/// Rows of a band: 256 bands hold the tallest picture.
const BAND_HEIGHT: u32 = 64;

/// A header with the Gabor-like filter and three iterations on, all else default.
const DEFAULTS: u8 = 0b1101;
/// A header with both filters off.
const OFF: u8 = 0;

/// Settings and sigmas of a picture, valid for each part of it.
pub struct Filters {
    pub settings: Settings,
    pub frame: Frame,
    pub table: Vec<u32>,
    pub grids: Vec<f32>,
}

impl Filters {
    /// One sigma for the whole picture: no group has a grid.
    pub fn of_one_sigma(picture: Region, settings: Settings) -> Result<Self, Refusal> {
        let frame = frame(picture);
        let groups = restoration::group_sizes(frame).value()?.num_groups;
        Ok(Self {
            settings,
            frame,
            table: vec![0; 3 * groups as usize],
            grids: Vec::new(),
        })
    }

    /// How far the passes read beyond a sample.
    pub fn margin(&self) -> Result<u32, Refusal> {
        restoration::margin(self.settings).value()
    }

    /// All passes over a picture or a part of it by itself, with a progress bar if they take long.
    pub fn smooth(&self, picture: Picture) -> Result<Picture, Refusal> {
        let mut bar = Bar::on_stderr();
        let setup = Setup {
            planes: picture.plane_count(),
            ..setup(picture.region, picture.region, self.settings)
        };
        let (table, grids) = (&self.table, &self.grids);
        let smoothing = Smoothing::start(setup, self.frame, table, grids, picture.planes)?;
        Ok(Picture {
            region: picture.region,
            planes: smoothing.finish_with(|progress| bar.show(progress))?,
        })
    }

    /// A part of a picture, smoothed with what it needs around it.
    pub fn part(&self, picture: &Picture, part: Region) -> Result<Picture, Refusal> {
        let planes = |widened| picture.cut(widened).planes;
        self.by_loupe(picture.region, picture.plane_count(), part, planes)
    }

    /// The same for the last part of a picture. The whole picture is freed as soon as the planes that the
    /// part needs are copied from it, so that it takes no memory while the passes run.
    pub fn last_part(&self, picture: Picture, part: Region) -> Result<Picture, Refusal> {
        let (whole, count) = (picture.region, picture.plane_count());
        let planes = |widened| picture.into_part(widened).planes;
        self.by_loupe(whole, count, part, planes)
    }

    fn by_loupe(
        &self,
        whole: Region,
        count: u32,
        part: Region,
        planes: impl FnOnce(Region) -> Vec<f32>,
    ) -> Result<Picture, Refusal> {
        let loupe = Loupe {
            whole,
            planes: count,
            settings: self.settings,
            frame: self.frame,
            table: &self.table,
            grids: &self.grids,
        };
        Ok(Picture {
            region: part,
            planes: loupe.smooth(part, planes)?,
        })
    }

    /// The same with a margin one too few at the right and at the bottom.
    pub fn part_with_less(&self, picture: &Picture, part: Region) -> Result<Picture, Refusal> {
        let setup = LoupeSetup {
            whole: picture.region,
            wanted: part,
            planes: picture.plane_count(),
            settings: self.settings,
        };
        let mut given = restoration::loupe_widened(setup).value()?;
        let past = |start: i32, side: u32| i64::from(start) + i64::from(side);
        let whole = picture.region;
        // An edge of the picture is no cut edge and stays.
        if past(given.left, given.width) < past(whole.left, whole.width) {
            given.width -= 1;
        }
        if past(given.top, given.height) < past(whole.top, whole.height) {
            given.height -= 1;
        }
        Ok(self.smooth(picture.cut(given))?.into_part(part))
    }
}

/// The default settings with the chosen ones.
pub fn settings(chosen: &Chosen) -> Settings {
    let mut settings = header(DEFAULTS);
    match chosen.gabor {
        Some(GaborChoice::Off) => settings.gabor.enabled = 0,
        Some(GaborChoice::Weights(weights)) => settings.gabor.weights = weights,
        None => {}
    }
    let epf = &mut settings.epf;
    epf.iters = chosen.iters.unwrap_or(epf.iters);
    epf.sigma_for_modular = chosen.sigma.unwrap_or(epf.sigma_for_modular);
    settings
}

fn header(bits: u8) -> Settings {
    let read = restoration::read_filters_vardct(&[bits], 0).value();
    let (filter, _) = read.expect("a header of seven bits");
    filter.into()
}

/// Whether a picture's sides are in range and a part lies inside it: `start` decides, of one plane
/// whatever the picture has. It reads only the plane's length, so its memory is never touched.
pub fn check_regions(picture: Region, part: Region) -> Result<(), Refusal> {
    let setup = Setup {
        planes: GREY_PLANES,
        ..setup(picture, part, header(OFF))
    };
    // Sides out of range are refused before lengths are compared.
    let area = picture.area();
    let samples = if area <= MAX_AREA as usize { area } else { 0 };
    let (mut first, second) = (vec![0.0; samples], vec![0.0; samples]);
    let (frame, table) = (frame(at_corner(1, 1)), [0; 3]);
    restoration::start(setup, frame, &table, &[], &mut first, &second, &mut []).value()?;
    Ok(())
}

/// The frame that a picture fills.
pub fn frame(picture: Region) -> Frame {
    Frame {
        group_size_shift: 0,
        ..Frame::with_size(picture.width, picture.height)
    }
}

fn setup(image: Region, filter: Region, settings: Settings) -> Setup {
    Setup {
        filter,
        settings,
        band_height: BAND_HEIGHT,
        ..Setup::whole(image)
    }
}

#[cfg(test)]
mod tests {
    use super::*;

    #[test]
    fn sides_are_in_range_up_to_the_largest_picture() {
        let check_regions = |(width, height)| {
            let picture = at_corner(width, height);
            check_regions(picture, picture)
        };
        for sides in [(1, 1), (4096, 4096), (16_384, 1024), (1024, 16_384)] {
            assert_eq!(check_regions(sides), Ok(()), "{sides:?}");
        }
        for sides in [(0, 1), (4097, 4096), (16_385, 1), (u32::MAX, u32::MAX)] {
            assert_eq!(check_regions(sides), Err(Refusal::OutOfLimits), "{sides:?}");
        }
    }
}

//! The Gabor-like pass: small pictures of all sizes and placements, band by band, random pictures, and
//! refusals. Samples that are not written must keep their bits. Filter regions of one row are
//! compared with the rule and with the standard's kernel, all others with the original.

pub mod one_row;

use restoration::{CHANNELS, GaborSettings, MAX_OFFSET, PLANES};

use crate::{
    bits,
    convert::{region, wide},
    expected::gabor::number,
    grey::definition,
    pass::{self, by_bands, one_call},
    picture::{self, Rows, plain, samples, special},
    random::Random,
    report::{Amount, Report, Row},
    scaled::ENDS,
};

/// Random pictures, before `--scale`.
const PICTURES: u64 = 10_000;
/// Pictures with all samples subnormal, and as many with all near overflow, before `--scale`.
const SCALED: u64 = 2_000;
/// Draws of damaged inputs, before `--scale`.
const DRAWS: u64 = 200_000;
/// Sides of small pictures.
const SIDES: u32 = 20;
/// Band heights.
const BANDS: u32 = 9;

/// A header's default weights.
pub const DEFAULT_WEIGHTS: oracle::Weights = GaborSettings::DEFAULT.weights;

const NAME: &str = "gabor rows";
/// The numbers that the pass can answer.
const NUMBERS: [u32; 5] = [0, 4, 5, 7, 9];

/// Values of `enabled`, which the pass ignores.
const ENABLED: [u32; 4] = [0, 1, 2, u32::MAX];

/// The inputs of a pass without the slices.
#[derive(Debug, Clone, Copy)]
struct Pass {
    place: oracle::Place,
    planes: u32,
    /// `preserve_outside` as the library gets it.
    full: u32,
    weights: oracle::Weights,
}

impl Pass {
    /// A pass with any weights; `full` is 1 for the result to be the whole image.
    fn new(
        planes: u32,
        [image, filter]: [oracle::Region; 2],
        full: u32,
        random: &mut Random,
    ) -> Self {
        Self {
            place: oracle::Place {
                image,
                filter,
                preserve_outside: full == 1,
            },
            planes,
            full,
            weights: read_by(planes, weights(random), random),
        }
    }
}

impl pass::Pass for Pass {
    fn place(&self) -> &oracle::Place {
        &self.place
    }

    fn planes(&self) -> u32 {
        self.planes
    }

    fn ours(&self, (from, to): Rows, source: &[f32], target: &mut [f32]) -> u32 {
        let place = self.place;
        let (image, filter) = (region(place.image), region(place.filter));
        let settings = GaborSettings {
            enabled: ENABLED[from.wrapping_add(to) as usize % ENABLED.len()],
            weights: self.weights,
        };
        restoration::gabor_pass(
            image, filter, self.planes, self.full, settings, from, to, source, target,
        )
    }

    fn original(&self, source: &[f32]) -> Vec<Vec<f32>> {
        if self.planes == PLANES {
            one_row::expected_pass(self.place, self.weights, picture::planes(source)).into()
        } else {
            let planes = picture::split(source, self.planes);
            definition::gabor_pass(&self.place, &self.weights, planes)
        }
    }

    fn number(&self, rows: Rows, sets: [usize; 2]) -> u32 {
        number(
            wide(self.place.image),
            wide(self.place.filter),
            self.planes,
            self.full,
            (rows.0.into(), rows.1.into()),
            sets,
        )
    }
}

pub fn compare(amount: Amount, report: &mut Report) {
    let mut random = Random::for_name(NAME);
    accepted(NAME, PLANES, amount, &mut random, report);
    one_row::compare(amount, &mut random, report);
    refusals(amount, &mut random, report);
}

/// Passes over sets of so many planes.
pub fn accepted(
    name: &'static str,
    planes: u32,
    amount: Amount,
    random: &mut Random,
    report: &mut Report,
) {
    let mut row = Row::new(name, "all sizes");
    for width in 1..=SIDES {
        for height in 1..=SIDES {
            all_placements(planes, (width, height), amount, random, &mut row);
        }
    }
    report.add(row);
    let mut row = Row::new(name, "random");
    while row.draws(PICTURES, amount) {
        let (pass, band) = random_pass(planes, random);
        any_picture(&pass, band, random, &mut row);
    }
    report.add(row);
    for end in ENDS {
        let mut row = Row::new(name, end.name());
        while row.draws(SCALED, amount) {
            let (pass, band) = random_pass(planes, random);
            let scale = end.draw(random);
            let source = scale.samples(picture::set_len(&pass.place, planes), random);
            by_bands(&pass, band, &source, random, &mut row);
        }
        report.add(row);
    }
}

/// A filter region at every offset in an image that is two samples larger, and as the whole image.
fn all_placements(
    planes: u32,
    (width, height): (u32, u32),
    amount: Amount,
    random: &mut Random,
    row: &mut Row,
) {
    for offset in 0..9 {
        let (right, down) = (offset % 3, offset / 3);
        let image = oracle::Region {
            left: random.within(-30, 30) as i32,
            top: random.within(-30, 30) as i32,
            width: width + 2,
            height: height + 2,
        };
        let filter = oracle::Region {
            left: image.left + right,
            top: image.top + down,
            width,
            height,
        };
        all_bands(planes, [image, filter], amount, random, row);
    }
    let whole = oracle::Region::with_size(width, height);
    all_bands(planes, [whole; 2], amount, random, row);
}

/// Both results, in bands of every height.
fn all_bands(
    planes: u32,
    regions: [oracle::Region; 2],
    amount: Amount,
    random: &mut Random,
    row: &mut Row,
) {
    for preserve_outside in [false, true] {
        for band in 1..=BANDS {
            if !row.takes(amount) {
                continue;
            }
            let pass = Pass::new(planes, regions, preserve_outside.into(), random);
            any_picture(&pass, band, random, row);
        }
    }
}

/// A pass with any left and top in range, and a band height.
fn random_pass(planes: u32, random: &mut Random) -> (Pass, u32) {
    let mut side = |most| random.within(1, most) as u32;
    let (width, height) = (side(70), side(70));
    let (columns, rows) = (side(width.into()), side(height.into()));
    let band = side(80);
    let image = oracle::Region {
        left: random.within((-MAX_OFFSET).into(), MAX_OFFSET.into()) as i32,
        top: random.within((-MAX_OFFSET).into(), MAX_OFFSET.into()) as i32,
        width,
        height,
    };
    // The filter region's left and top stay in range if the image region ends beyond.
    let last = |corner: i32, room: u32| i128::from(corner) + i128::from(room);
    let most = |corner, room| last(corner, room).min(MAX_OFFSET.into());
    let filter = oracle::Region {
        left: random.within(image.left.into(), most(image.left, width - columns)) as i32,
        top: random.within(image.top.into(), most(image.top, height - rows)) as i32,
        width: columns,
        height: rows,
    };
    let preserve_outside = random.once_in(2);
    let pass = Pass::new(planes, [image, filter], preserve_outside.into(), random);
    (pass, band)
}

/// Any picture, band by band.
fn any_picture(pass: &Pass, band: u32, random: &mut Random, row: &mut Row) {
    let source = samples(picture::set_len(&pass.place, pass.planes), random);
    by_bands(pass, band, &source, random, row);
}

/// Each number at its limits; a refusal writes nothing.
fn refusals(amount: Amount, random: &mut Random, report: &mut Report) {
    let mut row = Row::new(NAME, "refusals");
    while row.draws(DRAWS, amount) {
        damaged(random, &mut row);
    }
    row.require(&NUMBERS, amount);
    row.require_planes(amount);
    report.add(row);
}

/// A small picture, mostly with damaged inputs.
fn damaged(random: &mut Random, row: &mut Row) {
    let image = picture::any_region(random);
    let filter = if random.once_in(2) {
        image
    } else {
        picture::any_region(random)
    };
    let (planes, full) = (picture::any_planes(random), picture::any_flag(random));
    let pass = Pass::new(planes, [image, filter], full, random);
    let rows = (picture::any_row(random), picture::any_row(random));
    let source = samples(picture::any_set_len(image, planes, random), random);
    let before = samples(picture::any_set_len(image, planes, random), random);
    one_call(&pass, rows, [source, before], random, row);
}

/// Weights for sets of so many planes. Those of other channels are NaNs one time in two: they are not read.
pub fn read_by(planes: u32, mut weights: oracle::Weights, random: &mut Random) -> oracle::Weights {
    if random.once_in(2) {
        for pair in &mut weights[CHANNELS.min(planes as usize)..] {
            *pair = [bits::nan(random), bits::nan(random)];
        }
    }
    weights
}

/// The default weights, plain ones, or any floats.
pub fn weights(random: &mut Random) -> oracle::Weights {
    match random.within(0, 3) {
        0 => DEFAULT_WEIGHTS,
        1 => core::array::from_fn(|_| core::array::from_fn(|_| special(random))),
        _ => core::array::from_fn(|_| core::array::from_fn(|_| plain(random))),
    }
}

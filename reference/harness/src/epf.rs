//! The edge-preserving steps. Each is compared with `epf_row`, band by band, on small pictures of all
//! sizes, on random ones, on wide ones and on low ones of every width with blocks copied at random; all
//! together, with block sigmas, with `apply_epf`; and refusals. Samples that are not written must keep
//! their bits.

mod copied;
mod scaled;
mod tiled;
mod whole;

use restoration::{BLOCK, CHANNELS, EpfSettings, EpfStep, MAX_ITERS, MAX_OFFSET, PLANES};

use crate::{
    bits,
    convert::{edge, region, wide},
    expected::epf::{Input, number},
    grey::definition,
    pass::{self, by_bands, one_call},
    picture::{self, Rows, any_len, plain, samples, special},
    random::Random,
    report::{Amount, Report, Row},
    sigma::sigma,
};

/// Random pictures for each step, before `--scale`.
const PICTURES: u64 = 1_500;
/// Draws of damaged inputs.
const DRAWS: u64 = 200_000;
/// Sides of small pictures.
const SIDES: u32 = 20;
/// Band heights for small pictures, beside all rows at once.
const BANDS: u32 = 9;

/// Sigmas that are NaN, at the copying limit and next to it, infinite, negative and zero.
const SIGMAS: [u32; 9] = [
    0x7FC0_0000, 0x3E99_9999, 0x3E99_999A, 0x3E99_999B, 0x7F80_0000, 0xFF80_0000, 0xBF80_0000, 0,
    0x8000_0000,
];
/// Samples next to a 1 with which copying and filtering differ, and plain ones.
const FIRSTS: [f32; 6] = [-0.0, f32::INFINITY, f32::NEG_INFINITY, f32::NAN, 0.0, 1.0];
/// Sides of a picture with both border and inner rows and columns of blocks.
const TWO_BLOCKS: u32 = 10;

const NAMES: [&str; 3] = ["epf step 0", "epf step 1", "epf step 2"];
/// The numbers that a step can answer.
const NUMBERS: [u32; 6] = [0, 4, 5, 6, 7, 9];

/// The inputs of a step without the sets.
#[derive(Debug)]
struct Pass<'a> {
    place: oracle::Place,
    planes: u32,
    /// `preserve_outside` as the library gets it.
    full: u32,
    step: u32,
    settings: oracle::Edge,
    sigmas: &'a [f32],
}

impl<'a> Pass<'a> {
    /// A pass whose result is that of the place.
    fn of(kind: Kind, place: oracle::Place, settings: oracle::Edge, sigmas: &'a [f32]) -> Self {
        Self {
            place,
            planes: kind.planes,
            full: place.preserve_outside.into(),
            step: kind.step,
            settings,
            sigmas,
        }
    }
}

impl pass::Pass for Pass<'_> {
    fn place(&self) -> &oracle::Place {
        &self.place
    }

    fn planes(&self) -> u32 {
        self.planes
    }

    fn ours(&self, (from, to): Rows, source: &[f32], target: &mut [f32]) -> u32 {
        let place = self.place;
        let (image, filter) = (region(place.image), region(place.filter));
        let settings = step_of(self.step, self.settings);
        restoration::epf_pass(
            image, filter, self.planes, self.full, settings, self.sigmas, from, to, source, target,
        )
    }

    fn sigmas(&self) -> &[f32] {
        self.sigmas
    }

    /// The planes of the result: three by the original's row function, one by the definition.
    fn original(&self, source: &[f32]) -> Vec<Vec<f32>> {
        if self.planes == PLANES {
            return by_original(&self.place, self.step, self.settings, self.sigmas, source).into();
        }
        let planes = picture::split(source, self.planes);
        let step = step_of(self.step, self.settings);
        definition::epf_pass(&self.place, step, self.sigmas, planes)
    }

    fn number(&self, rows: Rows, sets: [usize; 2]) -> u32 {
        number(Input {
            image: wide(self.place.image),
            filter: wide(self.place.filter),
            planes: self.planes,
            preserve_outside: self.full,
            step: self.step,
            rows: (rows.0.into(), rows.1.into()),
            sigmas: self.sigmas.len(),
            sets,
        })
    }
}

/// The planes of the result of a step by the original's row function.
pub fn by_original(
    place: &oracle::Place,
    step: u32,
    settings: oracle::Edge,
    sigmas: &[f32],
    source: &[f32],
) -> oracle::Planes {
    let oracle::Place { image, filter, .. } = *place;
    let runs = picture::runs(PLANES, image, filter, (0, filter.height));
    let part: Vec<f32> = runs.flat_map(|run| source[run].iter().copied()).collect();
    let sources = picture::planes(&part);
    let mut filtered = sources.clone();
    oracle::epf_step(
        step,
        settings,
        sigmas,
        (filter.width as usize, filter.top as usize),
        sources.each_ref().map(Vec::as_slice),
        filtered.each_mut().map(Vec::as_mut_slice),
    );
    if !place.preserve_outside {
        return filtered;
    }
    let alone = oracle::Place {
        preserve_outside: false,
        ..*place
    };
    let mut set = source.to_vec();
    picture::store(&alone, &filtered, (0, filter.height), &mut set);
    picture::planes(&set)
}

/// What a step reads of the settings; step 1 has no scale of its own.
pub fn step_of(step: u32, settings: oracle::Edge) -> EpfStep {
    EpfStep {
        step,
        channel_scale: settings.channel_scale,
        multiplier: match step {
            0 => settings.sigma.pass0_sigma_scale,
            2 => settings.sigma.pass2_sigma_scale,
            _ => 1.0,
        },
        border_sad_mul: settings.sigma.border_sad_mul,
        ..EpfStep::DEFAULT
    }
}

/// A step over sets of so many planes.
#[derive(Debug, Clone, Copy)]
pub struct Kind {
    pub step: u32,
    pub planes: u32,
    /// In the table.
    pub name: &'static str,
}

impl Kind {
    /// Samples of a set.
    fn set_len(self, place: &oracle::Place) -> usize {
        picture::set_len(place, self.planes)
    }

    /// Any settings. Scales of other channels than the planes' are NaNs one time in two: they are not read.
    pub fn settings(self, random: &mut Random) -> oracle::Edge {
        let mut settings = settings(random);
        if random.once_in(2) {
            let read = CHANNELS.min(self.planes as usize);
            settings.channel_scale[read..].fill_with(|| bits::nan(random));
        }
        settings
    }
}

pub fn compare(amount: Amount, report: &mut Report) {
    for (step, name) in (0..).zip(NAMES) {
        let planes = PLANES;
        accepted(Kind { step, planes, name }, amount, report);
    }
    whole::compare(amount, report);
    refusals(amount, report);
}

/// Pictures of one step.
pub fn accepted(kind: Kind, amount: Amount, report: &mut Report) {
    let name = kind.name;
    let mut random = Random::for_name(name);
    let mut row = Row::new(name, "named");
    named(kind, &mut random, &mut row);
    report.add(row);
    let mut row = Row::new(name, "all sizes");
    for width in 1..=SIDES {
        for height in 1..=SIDES {
            all_placements(kind, (width, height), amount, &mut random, &mut row);
        }
    }
    report.add(row);
    let mut row = Row::new(name, "random");
    while row.draws(PICTURES, amount) {
        random_picture(kind, &mut random, &mut row);
    }
    report.add(row);
    let mut row = Row::new(name, "wide pictures");
    tiled::compare(kind, amount, &mut random, &mut row);
    report.add(row);
    copied::compare(kind, amount, report);
    scaled::compare(kind, amount, &mut random, report);
}

/// Two samples with each named sigma, and each setting negative and infinite.
fn named(kind: Kind, random: &mut Random, row: &mut Row) {
    for place in whole_images(2, 1) {
        for (sigma, source) in two_samples() {
            let pass = Pass::of(kind, place, DEFAULTS, core::slice::from_ref(&sigma));
            let source = &source[..kind.set_len(&place)];
            by_bands(&pass, 1, source, random, row);
        }
    }
    for place in whole_images(TWO_BLOCKS, TWO_BLOCKS) {
        for settings in signed_and_infinite() {
            let pass = Pass::of(kind, place, settings, &[1.0; 4]);
            let source = textured(kind.set_len(&place), random);
            by_bands(&pass, 3, &source, random, row);
        }
    }
}

/// Pictures whose filter region is the whole image, with both results.
fn whole_images(width: u32, height: u32) -> [oracle::Place; 2] {
    let region = oracle::Region::with_size(width, height);
    [false, true].map(|preserve_outside| oracle::Place {
        image: region,
        filter: region,
        preserve_outside,
    })
}

/// Each named sigma with planes of two samples, one of which is 1.
fn two_samples() -> impl Iterator<Item = (f32, Vec<f32>)> {
    SIGMAS.into_iter().flat_map(|sigma| {
        FIRSTS.into_iter().flat_map(move |first| {
            [[first, 1.0], [1.0, first]]
                .map(|two| (f32::from_bits(sigma), [two; CHANNELS].concat()))
        })
    })
}

/// The default settings, with one scale or multiplier at a time made negative or infinite.
fn signed_and_infinite() -> impl Iterator<Item = oracle::Edge> {
    (0..FLOATS.len()).flat_map(|at| {
        [-FLOATS[at], f32::INFINITY, f32::NEG_INFINITY].map(|float| {
            let mut floats = FLOATS;
            floats[at] = float;
            edge_of(floats)
        })
    })
}

/// Every placement, in bands of every height.
fn all_placements(
    kind: Kind,
    (width, height): (u32, u32),
    amount: Amount,
    random: &mut Random,
    row: &mut Row,
) {
    for place in placements((width, height), random) {
        for band in (1..=BANDS).chain([place.image.height]) {
            if row.takes(amount) {
                one_step(place, kind, band, random, row);
            }
        }
    }
}

/// The filter region as the whole image, inside an image, and inside one with negative left and top;
/// both results.
pub fn placements((width, height): (u32, u32), random: &mut Random) -> [oracle::Place; 6] {
    let at = |left, top| oracle::Region {
        left,
        top,
        width,
        height,
    };
    let mut block = || (BLOCK * random.within(0, 9) as u32) as i32;
    let (left, top) = (block(), block());
    let whole = at(left, top);
    let regions = [
        (whole, whole),
        (around(whole, random), whole),
        (around(at(0, 0), random), at(0, 0)),
    ];
    core::array::from_fn(|n| oracle::Place {
        image: regions[n / 2].0,
        filter: regions[n / 2].1,
        preserve_outside: n % 2 == 1,
    })
}

/// An image region around a filter region, with up to 11 samples more on each side.
fn around(filter: oracle::Region, random: &mut Random) -> oracle::Region {
    let mut margin = || random.within(0, 11) as u32;
    let (left, top) = (margin(), margin());
    oracle::Region {
        left: filter.left - left as i32,
        top: filter.top - top as i32,
        width: filter.width + left + margin(),
        height: filter.height + top + margin(),
    }
}

fn random_picture(kind: Kind, random: &mut Random, row: &mut Row) {
    // Left and top up to their limits.
    let farthest = MAX_OFFSET as u32 / BLOCK;
    let most = if random.once_in(4) { farthest } else { 20 };
    let mut block = || (BLOCK * random.within(0, most.into()) as u32) as i32;
    let (left, top) = (block(), block());
    let mut side = || random.within(1, 130) as u32;
    let filter = oracle::Region {
        left,
        top,
        width: side(),
        height: side(),
    };
    let band = side();
    let place = oracle::Place {
        image: around(filter, random),
        filter,
        preserve_outside: random.once_in(2),
    };
    one_step(place, kind, band, random, row);
}

fn one_step(place: oracle::Place, kind: Kind, band: u32, random: &mut Random, row: &mut Row) {
    let sigmas: Vec<f32> = (0..block_count(place.filter))
        .map(|_| sigma(random))
        .collect();
    with_sigmas(place, kind, band, &sigmas, random, row);
}

pub fn block_count(filter: oracle::Region) -> u32 {
    filter.width.div_ceil(BLOCK) * filter.height.div_ceil(BLOCK)
}

/// A picture with these sigmas and any settings.
fn with_sigmas(
    place: oracle::Place,
    kind: Kind,
    band: u32,
    sigmas: &[f32],
    random: &mut Random,
    row: &mut Row,
) {
    let pass = Pass::of(kind, place, kind.settings(random), sigmas);
    let source = textured(kind.set_len(&place), random);
    by_bands(&pass, band, &source, random, row);
}

/// Each number at its limits; a refusal writes nothing.
fn refusals(amount: Amount, report: &mut Report) {
    let mut row = Row::new("epf steps", "refusals");
    let random = &mut Random::for_name("epf steps");
    while row.draws(DRAWS, amount) {
        damaged(random, &mut row);
    }
    row.require(&NUMBERS, amount);
    row.require_planes(amount);
    report.add(row);
}

/// A small picture, mostly with damaged inputs.
fn damaged(random: &mut Random, row: &mut Row) {
    let mut image = picture::any_region(random);
    if random.once_in(2) {
        // On blocks, so that the later checks are reached too.
        let on_block = |place: i32| place & -(BLOCK as i32);
        (image.left, image.top) = (on_block(image.left), on_block(image.top));
    }
    let filter = if random.once_in(2) {
        image
    } else {
        picture::any_region(random)
    };
    let rows = (picture::any_row(random), picture::any_row(random));
    let planes = picture::any_planes(random);
    let source = samples(picture::any_set_len(image, planes, random), random);
    let before = samples(picture::any_set_len(image, planes, random), random);
    let mut sigmas = vec![1.0; any_len(1, random)];
    if random.once_in(2) {
        bits::sprinkle(&mut sigmas, random);
    }
    let full = picture::any_flag(random);
    let pass = Pass {
        place: oracle::Place {
            image,
            filter,
            preserve_outside: full == 1,
        },
        planes,
        full,
        step: random.one_of(&[0, 1, 2, 0, 1, 2, 0, 1, 3, u32::MAX]),
        settings: settings(random),
        sigmas: &sigmas,
    };
    one_call(&pass, rows, [source, before], random, row);
}

/// A header's default settings, with all steps.
pub const DEFAULTS: oracle::Edge = edge(EpfSettings {
    iters: MAX_ITERS,
    ..EpfSettings::DEFAULT
});

/// The default scales and multipliers: of the channels, of steps 0 and 2, of the border.
const FLOATS: [f32; 6] = [
    DEFAULTS.channel_scale[0],
    DEFAULTS.channel_scale[1],
    DEFAULTS.channel_scale[2],
    DEFAULTS.sigma.pass0_sigma_scale,
    DEFAULTS.sigma.pass2_sigma_scale,
    DEFAULTS.sigma.border_sad_mul,
];

/// The default settings, plain ones of either sign, defaults with one special float, or any floats.
pub fn settings(random: &mut Random) -> oracle::Edge {
    let mut floats = FLOATS;
    match random.within(0, 5) {
        0 | 1 => {}
        2 => floats = core::array::from_fn(|_| 8.0 * plain(random).abs()),
        3 => floats = core::array::from_fn(|_| 8.0 * plain(random)),
        4 => {
            let at = random.within(0, 5) as usize;
            floats[at] = match random.within(0, 3) {
                0 => f32::INFINITY,
                1 => f32::NEG_INFINITY,
                2 => -floats[at],
                _ => special(random),
            };
        }
        _ => floats = core::array::from_fn(|_| special(random)),
    }
    edge_of(floats)
}

fn edge_of(floats: [f32; 6]) -> oracle::Edge {
    let mut edge = DEFAULTS;
    edge.channel_scale.copy_from_slice(&floats[..3]);
    edge.sigma.pass0_sigma_scale = floats[3];
    edge.sigma.pass2_sigma_scale = floats[4];
    edge.sigma.border_sad_mul = floats[5];
    edge
}

/// Samples that differ little, so that neighbours have weight, or much; some sets have special ones.
pub fn textured(count: usize, random: &mut Random) -> Vec<f32> {
    let depth = random.one_of(&[1.0, 0.1, 0.01, 0.01, 0.001]);
    let mut set: Vec<f32> = samples(count, random);
    let base = plain(random);
    for sample in &mut set {
        *sample = base + depth * *sample;
    }
    if random.once_in(4) {
        for sample in &mut set {
            if random.once_in(32) {
                *sample = special(random);
            }
        }
    }
    set
}

//! Each pass over all rows at once beside the original's row functions, and whole runs.

use std::{cell::RefCell, hint::black_box};

use restoration::{EpfStep, GaborSettings, MAX_HEADER_BYTES, PLANES, Region};

use super::{
    COLUMNS, COPIED, FILTERED, Picture, Times, best, grey, head, rectangles::SHARES, row, run,
    smooth,
};
use crate::{
    bits,
    epf::{DEFAULTS, step_of},
    gabor::DEFAULT_WEIGHTS,
    random::Random,
};

const PICTURES: [Picture; 3] = [
    Picture::square(64),
    Picture::square(504),
    Picture::square(2040),
];
/// Other pictures of the Gabor-like pass.
const GABOR_PICTURES: [Picture; 4] = [
    Picture::new(143, 111),
    Picture::square(256),
    Picture::square(1024),
    Picture::new(7, 2040),
];

/// Grey pictures.
const GREY_PICTURES: [Picture; 4] = [
    Picture::square(64),
    Picture::new(143, 111),
    Picture::square(504),
    Picture::square(2040),
];

/// Every pass by itself, and a whole run from start to result; the same on grey pictures.
pub fn print() {
    head(&COLUMNS);
    for picture in PICTURES {
        row("Gabor-like", picture, gabor(picture));
        let sigmas = vec![FILTERED; picture.block_count()];
        for step in 0..3 {
            let times = epf(step, picture, &sigmas);
            row(&format!("step {step}"), picture, times);
        }
        let times = run::beside_original(&run::input(picture));
        row("whole run", picture, times);
    }
    grey::print(&GREY_PICTURES, &SHARES);
}

/// Other sizes, copied blocks, and headers.
pub fn print_cases() {
    head(&COLUMNS);
    for picture in GABOR_PICTURES {
        row("Gabor-like", picture, gabor(picture));
    }
    for step in 0..3 {
        for picture in PICTURES {
            let times = epf(step, picture, &vec![COPIED; picture.block_count()]);
            row(&format!("step {step}, all copied"), picture, times);
        }
    }
    header();
}

/// Samples of a Gabor-like pass.
pub fn gabor_source(picture: Picture) -> Vec<f32> {
    let mut random = Random::for_name("bench gabor");
    (0..picture.samples())
        .map(|_| random.within(0, 1 << 20) as f32 / 1024.0)
        .collect()
}

pub fn gabor(picture: Picture) -> Times {
    let source = gabor_source(picture);
    let target = RefCell::new(vec![0.0f32; picture.samples()]);
    let weights = black_box(DEFAULT_WEIGHTS);
    let ours = || {
        let image = picture.region();
        let settings = GaborSettings::with_weights(weights);
        let source = black_box(&source);
        gabor_pass(image, PLANES, settings, source, &mut target.borrow_mut());
    };
    let theirs = || {
        original_gabor(
            picture,
            weights,
            black_box(&source),
            &mut target.borrow_mut(),
        );
    };
    best_of_same(&target, ours, theirs)
}

/// All planes by the original's function of one.
pub fn original_gabor(
    picture: Picture,
    weights: oracle::Weights,
    source: &[f32],
    target: &mut [f32],
) {
    let (plane, width) = (picture.plane(), picture.width as usize);
    let planes = source
        .chunks_exact(plane)
        .zip(target.chunks_exact_mut(plane));
    for ((source, target), weights) in planes.zip(weights) {
        oracle::gabor_plane(source, target, width, weights);
    }
}

/// One edge-preserving step with the default settings and one sigma per block.
pub fn epf(step: u32, picture: Picture, sigmas: &[f32]) -> Times {
    let source = smooth(picture.samples());
    let target = RefCell::new(vec![0.0f32; picture.samples()]);
    let settings = black_box(DEFAULTS);
    let ours = || {
        let (image, step) = (picture.region(), step_of(step, settings));
        let source = black_box(&source);
        let target = &mut target.borrow_mut();
        epf_pass(image, PLANES, step, sigmas, source, target);
    };
    let theirs = || {
        let (source, target) = (black_box(&source), &mut target.borrow_mut());
        original_step(step, settings, sigmas, picture, source, target);
    };
    best_of_same(&target, ours, theirs)
}

/// A step over three planes by the original.
pub fn original_step(
    step: u32,
    settings: oracle::Edge,
    sigmas: &[f32],
    picture: Picture,
    source: &[f32],
    target: &mut [f32],
) {
    let (plane, width) = (picture.plane(), picture.width as usize);
    let mut parts = target.chunks_exact_mut(plane);
    let targets = core::array::from_fn(|_| parts.next().expect("three planes"));
    let sources = core::array::from_fn(|c| &source[c * plane..][..plane]);
    oracle::epf_step(step, settings, sigmas, (width, 0), sources, targets);
}

/// Runs both alternately on the same target. Afterwards both must write all of it, with the same bits.
fn best_of_same(
    target: &RefCell<Vec<f32>>,
    mut ours: impl FnMut(),
    mut theirs: impl FnMut(),
) -> Times {
    let times = best(&mut ours, &mut theirs);
    // The two targets differ in every sample, so that one that is not written is noticed.
    target.borrow_mut().fill(0.0);
    ours();
    let result = target.replace_with(|target| vec![f32::NAN; target.len()]);
    theirs();
    let same = bits::same(&result, &target.borrow());
    assert!(same, "both give the same samples");
    times
}

/// All rows of an image whose filter region is the whole image, on sets of so many planes.
pub fn gabor_pass(
    image: Region,
    planes: u32,
    settings: GaborSettings,
    source: &[f32],
    target: &mut [f32],
) {
    let to = image.height;
    let number = restoration::gabor_pass(image, image, planes, 1, settings, 0, to, source, target);
    assert_eq!(number, 0);
}

pub fn epf_pass(
    image: Region,
    planes: u32,
    step: EpfStep,
    sigmas: &[f32],
    source: &[f32],
    target: &mut [f32],
) {
    let to = image.height;
    let number =
        restoration::epf_pass(image, image, planes, 1, step, sigmas, 0, to, source, target);
    assert_eq!(number, 0);
}

/// Reading both filters at the last bit position of a slice of 64 KiB and at the first.
fn header() {
    const BITS: usize = 8 * MAX_HEADER_BYTES;
    const TIMES: usize = 1000;
    let bytes = vec![0u8; MAX_HEADER_BYTES];
    let read = |place: usize| {
        for _ in 0..TIMES {
            let answer =
                restoration::read_filters(&bytes, black_box(place), restoration::Encoding::VarDct);
            assert_eq!(black_box(answer).number, 0);
        }
    };
    let times = best(|| read(BITS - 3), || read(0));
    println!(
        "\nA header read at the last bit position of 64 KiB: {:.1} ns, at the first: {:.1} ns, ratio {:.2}.",
        times.ours / TIMES as f64,
        times.theirs / TIMES as f64,
        times.ratio()
    );
}

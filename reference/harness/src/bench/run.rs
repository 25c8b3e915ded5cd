//! A whole run, from start to result, beside its passes alone and beside the original.

use std::hint::black_box;

use restoration::{BLOCK, MAX_ITERS, PLANES, Region, Run, Setup};

use super::{
    FILTERED, Picture, Times, best_timed, head,
    passes::{epf_pass, gabor_pass},
    row, smooth, timed,
};
use crate::{
    bits,
    epf::{DEFAULTS, step_of},
    runs::{Input, Passes, defaults},
};

const PICTURE: Picture = Picture::square(504);
pub const BAND: u32 = 64;
/// With this group size shift the largest picture, 4080 × 4080, has one group.
const ONE_GROUP: u32 = 2;
/// The Gabor-like pass and all iterations.
pub const PASSES: u32 = 1 + MAX_ITERS;
const ALL: Passes = Passes {
    gabor: true,
    iterations: MAX_ITERS,
};

/// A run by bands beside the same passes, each over all rows at once.
pub fn print() {
    head(&[
        "calls",
        "picture",
        "bands, ns",
        "all rows at once, ns",
        "ratio",
    ]);
    let times = beside_passes(|input, _| {
        to_the_finish(input);
    });
    row("start, bands, advances", PICTURE, times);
    row("with the result", PICTURE, beside_passes(with_result));
}

fn beside_passes(mut run: impl FnMut(&mut Input, &mut [f32])) -> Times {
    let given = input(PICTURE);
    let (mut by_bands, mut alone) = (given.clone(), given.clone());
    let mut out = result_slice(PICTURE);
    best_timed(
        || {
            by_bands.first.copy_from_slice(&given.first);
            timed(|| run(black_box(&mut by_bands), &mut out))
        },
        || {
            alone.first.copy_from_slice(&given.first);
            timed(|| passes(black_box(&mut alone)))
        },
    )
}

/// Start, all bands and advances, and the result, beside `apply_gabor_like` and `apply_epf`. Both
/// filter the same picture each time: the first set, which a run overwrites, is filled before it.
pub fn beside_original(given: &Input) -> Times {
    let mut input = given.clone();
    let mut out = vec![0.0; given.first.len()];
    let times = best_timed(
        || {
            input.first.copy_from_slice(&given.first);
            timed(|| with_result(black_box(&mut input), &mut out))
        },
        || timed(black_box(given.original_run())),
    );
    assert!(
        bits::same(&out, &given.original()),
        "both give the same samples"
    );
    times
}

/// The inputs of start for the Gabor-like pass and three iterations over a whole image of one group.
pub fn input(picture: Picture) -> Input {
    part_input(picture, picture.region())
}

/// The same over a part of such an image, as an image of its own.
pub fn part_input(whole: Picture, part: Region) -> Input {
    let samples = part.sample_count();
    let (across, down) = whole.blocks();
    let own = part.width.div_ceil(BLOCK) * part.height.div_ceil(BLOCK);
    Input {
        setup: Setup {
            preserve_outside: 1,
            settings: defaults(ALL),
            band_height: BAND,
            ..Setup::whole(part)
        },
        frame: oracle::Frame {
            width: whole.width,
            height: whole.height,
            upsampling: 1,
            lf_level: 0,
            group_size_shift: ONE_GROUP,
        },
        table: vec![1, across, down],
        grids: vec![FILTERED; whole.block_count()],
        first: smooth(samples),
        second: vec![0.0; samples],
        sigmas: vec![FILTERED; own as usize],
    }
}

pub fn result_slice(picture: Picture) -> Vec<f32> {
    vec![0.0; picture.samples()]
}

/// Start, and all bands and advances.
pub fn to_the_finish(input: &mut Input) -> Run {
    let answer = input.start();
    assert_eq!(answer.number, 0);
    let mut run = answer.run;
    let bands = run.setup.image.height.div_ceil(run.setup.band_height);
    for _ in 0..PASSES {
        for k in 0..bands {
            let sets = (&mut input.first, &mut input.second);
            run = restoration::band(run, &input.sigmas, sets.0, sets.1, k).run;
        }
        run = restoration::advance(run).run;
    }
    assert_eq!(run.pass, PASSES);
    run
}

pub fn with_result(input: &mut Input, out: &mut [f32]) {
    let run = to_the_finish(input);
    let number = restoration::result(run, &input.first, &input.second, out);
    assert_eq!(number, 0);
}

/// The same four passes, each over all rows at once.
fn passes(input: &mut Input) {
    let image = input.setup.image;
    let (first, second) = (&mut input.first[..], &mut input.second[..]);
    gabor_pass(image, PLANES, input.setup.settings.gabor, first, second);
    let (mut source, mut target) = (second, first);
    for step in 0..3 {
        let step = step_of(step, DEFAULTS);
        epf_pass(image, PLANES, step, &input.sigmas, source, target);
        (source, target) = (target, source);
    }
}

//! Grey passes and runs beside the first plane of the original, whose other planes are zeros and whose scales
//! are s, 0, 0.
//!
//! Both are the same for all samples, sigmas and s: the sums of the other channels are |0 − 0| and so +0, 0 × +0
//! is +0, and adding +0 changes no distance, since a distance is never −0: it starts from +0. They are not the
//! same where another plane has an infinity or NaN, or two samples whose difference overflows: 0 × ∞ is NaN, and
//! a NaN distance has weight 0, whatever the scale. Nor in a run whose Gabor-like pass makes such samples of
//! zeros, so the other channels have the default weights here. A Gabor-like pass by itself reads no plane for
//! another. Passes over one row are left out: there the original has another rule.

use restoration::{CHANNELS, GREY_PLANES, GaborSettings, PLANES};

use super::{Picture, by_library, compare_samples, runs::passes};
use crate::{
    epf::{self, step_of},
    gabor, picture,
    random::Random,
    report::{Amount, Report, Row},
    runs::{self, Input},
};

/// Pictures of each pass, and whole runs, before `--scale`.
const PICTURES: u64 = 6_000;
const RUNS: u64 = 4_000;
/// Sides of pictures of whole runs.
const SIDES: u32 = 40;

const NAME: &str = "grey, zeros beside";

pub fn compare(amount: Amount, report: &mut Report) {
    let mut random = Random::for_name(NAME);
    let mut row = Row::new(NAME, "gabor");
    for n in 0.. {
        if !row.draws(PICTURES, amount) {
            break;
        }
        one_gabor(n, &mut random, &mut row);
    }
    report.add(row);
    for (step, inputs) in (0..).zip(["step 0", "step 1", "step 2"]) {
        let mut row = Row::new(NAME, inputs);
        for n in 0.. {
            if !row.draws(PICTURES, amount) {
                break;
            }
            one_step(step, n, &mut random, &mut row);
        }
        report.add(row);
    }
    let mut row = Row::new(NAME, "whole runs");
    for n in 0.. {
        if !row.draws(RUNS, amount) {
            break;
        }
        one_run(n, &mut random, &mut row);
    }
    report.add(row);
}

/// The plane, and planes of zeros behind it.
pub fn beside_zeros(plane: &[f32]) -> Vec<f32> {
    let mut planes = plane.to_vec();
    planes.resize(CHANNELS * plane.len(), 0.0);
    planes
}

/// The samples of the result in a target.
fn result(place: &oracle::Place, target: &[f32]) -> Vec<f32> {
    let part = picture::result(place);
    let rows = picture::runs(GREY_PLANES, place.image, part, (0, part.height));
    rows.flat_map(|run| &target[run]).copied().collect()
}

fn one_gabor(n: u64, random: &mut Random, row: &mut Row) {
    let Picture { place, source, .. } = Picture::draw(n, GREY_PLANES, random);
    if place.filter.height == 1 {
        return;
    }
    let weights = gabor::weights(random);
    let planes = picture::planes(&beside_zeros(&source));
    let [expected, ..] = oracle::gabor(place, weights, planes);
    match by_library::gabor(&place, weights, &source) {
        Ok(target) => compare_samples(&place, &result(&place, &target), &expected, row),
        Err(refusal) => row.differs(&place, &refusal, &0),
    }
}

fn one_step(step: u32, n: u64, random: &mut Random, row: &mut Row) {
    let picture = Picture::draw(n, GREY_PLANES, random);
    let Picture {
        place,
        sigmas,
        source,
    } = &picture;
    let mut settings = epf::settings(random);
    settings.channel_scale[1..].fill(0.0);
    let planes = beside_zeros(source);
    let [expected, ..] = epf::by_original(place, step, settings, sigmas, &planes);
    let case = (place, settings);
    match by_library::step(place, step_of(step, settings), sigmas, source) {
        Ok(target) => compare_samples(&case, &result(place, &target), &expected, row),
        Err(refusal) => row.differs(&case, &refusal, &0),
    }
}

fn one_run(n: u64, random: &mut Random, row: &mut Row) {
    let passes = passes(n);
    let input = runs::with_passes(passes, SIDES, random).into_grey();
    if passes.gabor && input.setup.filter.height == 1 {
        return;
    }
    let expected = first_of_three(&input);
    row.of_groups(input.is_mixed());
    match by_library::run(&input) {
        Ok(given) => compare_samples(&input, &given, &expected, row),
        Err(refusal) => row.differs(&input, &refusal, &0),
    }
}

/// The first plane of the original's run over three planes.
pub fn first_of_three(grey: &Input) -> Vec<f32> {
    let mut input = grey.clone();
    input.setup.planes = PLANES;
    input.first = beside_zeros(&grey.first);
    input.second = beside_zeros(&grey.second);
    let settings = &mut input.setup.settings;
    settings.epf.channel_scale[1..].fill(0.0);
    settings.gabor.weights[1..].copy_from_slice(&GaborSettings::DEFAULT.weights[1..]);
    let mut planes = input.original();
    planes.truncate(planes.len() / CHANNELS);
    planes
}

#[cfg(test)]
mod tests {
    use super::*;

    /// The first plane of step 1 by the original, with this plane beside it and then zeros, and the grey one.
    fn beside(plane: [f32; 2]) -> [Vec<f32>; 2] {
        let region = oracle::Region::with_size(2, 1);
        let place = oracle::Place {
            image: region,
            filter: region,
            preserve_outside: true,
        };
        let mut settings = epf::DEFAULTS;
        settings.channel_scale = [1.0, 0.0, 0.0];
        let first = [0.0, 0.25];
        let source = [first, plane, [0.0; 2]].concat();
        let [original, ..] = epf::by_original(&place, 1, settings, &[2.0], &source);
        let grey = by_library::step(&place, step_of(1, settings), &[2.0], &first);
        [original, grey.expect("an accepted pass")]
    }

    #[test]
    fn an_infinite_sample_beside_makes_another_picture() {
        let [original, grey] = beside([1.0, 7.0]);
        assert_eq!(original, grey);
        let [original, grey] = beside([1.0, f32::INFINITY]);
        assert_eq!(original, [0.0, 0.25]);
        assert_ne!(original, grey);
    }
}

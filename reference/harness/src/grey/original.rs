//! The definition beside the original, on three planes. Gabor-like passes over one row are left out: there the
//! original has another rule (docs/DIFFERENCES.md).

use restoration::PLANES;

use super::{Picture, compare_samples, definition};
use crate::{
    epf::{self, step_of},
    gabor, picture,
    random::Random,
    report::{Amount, Report, Row},
    runs,
};

/// Pictures of each pass, and whole runs, before `--scale`.
const PICTURES: u64 = 8_000;
const RUNS: u64 = 4_000;
/// Sides of pictures of whole runs.
const SIDES: u32 = 40;

const NAME: &str = "definition";

pub fn compare(amount: Amount, report: &mut Report) {
    let mut random = Random::for_name(NAME);
    let mut row = Row::new(NAME, "gabor");
    for n in 0.. {
        if !row.draws(PICTURES, amount) {
            break;
        }
        one_gabor(n, &mut random, &mut row);
    }
    report.add(row);
    for (step, inputs) in (0..).zip(["step 0", "step 1", "step 2"]) {
        let mut row = Row::new(NAME, inputs);
        for n in 0.. {
            if !row.draws(PICTURES, amount) {
                break;
            }
            one_step(step, n, &mut random, &mut row);
        }
        report.add(row);
    }
    whole_runs(amount, &mut random, report);
}

fn one_gabor(n: u64, random: &mut Random, row: &mut Row) {
    let Picture { place, source, .. } = Picture::draw(n, PLANES, random);
    if place.filter.height == 1 {
        return;
    }
    let weights = gabor::weights(random);
    let given = definition::gabor_pass(&place, &weights, picture::split(&source, PLANES));
    let expected = oracle::gabor(place, weights, picture::planes(&source));
    compare_samples(&(place, weights), &given.concat(), &expected.concat(), row);
}

fn one_step(step: u32, n: u64, random: &mut Random, row: &mut Row) {
    let picture = Picture::draw(n, PLANES, random);
    let Picture {
        place,
        sigmas,
        source,
    } = &picture;
    let settings = epf::settings(random);
    let planes = picture::split(source, PLANES);
    let given = definition::epf_pass(place, step_of(step, settings), sigmas, planes);
    let expected = epf::by_original(place, step, settings, sigmas, source);
    let case = (place, settings, sigmas);
    compare_samples(&case, &given.concat(), &expected.concat(), row);
}

fn whole_runs(amount: Amount, random: &mut Random, report: &mut Report) {
    let mut row = Row::new(NAME, "whole runs");
    while row.draws(RUNS, amount) {
        let passes = runs::passes(random);
        let input = runs::with_passes(passes, SIDES, random);
        if passes.gabor && input.setup.filter.height == 1 {
            continue;
        }
        row.of_groups(input.is_mixed());
        compare_samples(&input, &input.defined(), &input.original(), &mut row);
    }
    report.add(row);
}

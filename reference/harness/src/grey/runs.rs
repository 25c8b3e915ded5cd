//! Whole grey runs beside the definition: all settings, both results, bands in any order, with refused calls of
//! every number interleaved.

use std::collections::HashSet;

use restoration::{MAX_ITERS, Settings, Setup};

use crate::{
    bits,
    random::Random,
    report::{Amount, Report, Row},
    runs::{self, Input, Passes, Tally, whole},
};

/// Runs of small pictures and of large ones, before `--scale`.
const RUNS: u64 = 15_000;
const LARGE_RUNS: u64 = 16;
/// Sides of small pictures.
const SMALL: u32 = 40;
/// Sides of large filter regions, and of images around them.
const LARGE: (u32, u32) = (300, 270);
const LARGE_IMAGE: u32 = 310;
/// The Gabor-like filter on or off, 0 to 3 iterations, both results.
const SETTINGS: u64 = 2 * (1 + MAX_ITERS as u64) * 2;

const NAME: &str = "grey runs";

pub fn compare(amount: Amount, report: &mut Report) {
    let mut random = Random::for_name(NAME);
    let mut tally = Tally::new("in grey runs");
    let mut row = Row::new(NAME, "small");
    let mut seen = HashSet::new();
    for n in 0.. {
        if !row.draws(RUNS, amount) {
            break;
        }
        let input = grey(
            runs::with_passes(passes(n), SMALL, &mut random),
            &mut random,
        );
        seen.insert((n % 8, input.setup.preserve_outside));
        whole(input, &mut random, &mut row, &mut tally);
    }
    row.at_least("settings with a result", seen.len() as u64, SETTINGS);
    report.add(row);
    let mut row = Row::new(NAME, "large");
    for n in 0..amount.few(LARGE_RUNS) {
        let drawn = runs::with_sides(passes(n), LARGE, LARGE_IMAGE, &mut random);
        let input = grey(drawn, &mut random);
        whole(input, &mut random, &mut row, &mut tally);
    }
    report.add(row);
    tally.require(amount);
    tally.report(report);
}

/// All eight in turn.
pub fn passes(n: u64) -> Passes {
    Passes {
        gabor: n.is_multiple_of(2),
        iterations: (n / 2) as u32 % (MAX_ITERS + 1),
    }
}

/// The first plane alone. Weights and scales that are not read are NaNs one time in two.
pub fn grey(input: Input, random: &mut Random) -> Input {
    let mut input = input.into_grey();
    if random.once_in(2) {
        unread(&mut input.setup, random);
    }
    input
}

/// NaNs in the weights and scales of the channels that a grey picture does not have.
pub fn unread(setup: &mut Setup, random: &mut Random) {
    let Settings { gabor, epf } = &mut setup.settings;
    let scales = epf.channel_scale[1..].iter_mut();
    for float in gabor.weights[1..]
        .as_flattened_mut()
        .iter_mut()
        .chain(scales)
    {
        *float = bits::nan(random);
    }
}

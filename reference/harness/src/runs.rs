//! Whole runs against the original's `apply_gabor_like` (on one row the rule, `gabor::one_row`) and
//! `apply_epf` on one picture, without its carry if groups are mixed: bands in random order, with refused calls of
//! every number interleaved.

mod bands_left;
mod calls;
pub mod damage;
mod draw;
mod input;
mod instances;
mod nans;
mod refusals;
mod scaled;

use restoration::{MAX_BANDS, MAX_ITERS};

pub use calls::Tally;
use damage::MOST_SAMPLES;
pub use draw::{
    Passes, around, band_height, defaults, part, passes, settings, with_passes, with_sides,
};
pub use input::{Input, State, counted, place, setup_rule};

use crate::{
    bits,
    picture::{agree, samples},
    random::Random,
    report::{Amount, Report, Row},
};

/// Runs of small pictures, of small ones with mixed groups, and of large ones, before `--scale`.
const RUNS: u64 = 20_000;
const MIXED_RUNS: u64 = 3_000;
const LARGE_RUNS: u64 = 24;
/// Sides of small pictures.
const SMALL: u32 = 40;
/// Sides of large filter regions, and of images around them.
const LARGE: (u32, u32) = (300, 270);
const LARGE_IMAGE: u32 = 310;
/// `MAX_BANDS` in the type of a band's number.
const BANDS: u32 = MAX_BANDS as u32;

pub fn compare(amount: Amount, report: &mut Report) {
    instances::compare(report);
    bands_left::compare(amount, report);
    let mut random = Random::for_name("whole runs");
    let mut tally = Tally::new("in runs");
    let mut row = Row::new("whole runs", "small");
    while row.draws(RUNS, amount) {
        let input = draw::picture(SMALL, &mut random);
        whole(input, &mut random, &mut row, &mut tally);
    }
    report.add(row);
    let mut row = Row::new("whole runs", "mixed groups");
    while row.draws(MIXED_RUNS, amount) {
        whole(mixed(&mut random), &mut random, &mut row, &mut tally);
    }
    report.add(row);
    let mut row = Row::new("whole runs", "large");
    for n in 0..amount.few(LARGE_RUNS) {
        let passes = Passes {
            gabor: n % 2 == 0,
            iterations: (n / 2) as u32 % (MAX_ITERS + 1),
        };
        let input = draw::with_sides(passes, LARGE, LARGE_IMAGE, &mut random);
        whole(input, &mut random, &mut row, &mut tally);
    }
    report.add(row);
    scaled::compare(amount, &mut random, report, &mut tally);
    tally.require(amount);
    tally.report(report);
}

/// A small picture, where some groups have a grid and some have none.
fn mixed(random: &mut Random) -> Input {
    loop {
        let input = draw::picture(SMALL, random);
        if input.is_mixed() {
            return input;
        }
    }
}

/// A run from start to result; the result must be that of [`Input::original`].
pub fn whole(mut input: Input, random: &mut Random, row: &mut Row, tally: &mut Tally) {
    let original = input.original();
    row.of_groups(input.is_mixed());
    damaged_start(&input, random, tally);
    let (_, run) = calls::start(&mut input, tally);
    let mut state = State::new(run, &input);
    let setup = setup_rule(&input.setup);
    for _ in 0..setup.passes() {
        for k in shuffled(setup.bands() as u32, random) {
            interleave(&input, &state, random, tally);
            calls::band(&mut state, k, tally);
        }
        interleave(&input, &state, random, tally);
        calls::advance(&mut state.run, tally);
    }
    interleave(&input, &state, random, tally);
    let mut out = samples(original.len(), random);
    let number = calls::result(&mut state, &mut out, tally);
    row.count(0);
    let differing = out.iter().zip(&original).position(|(a, b)| !agree(*a, *b));
    if let Some(at) = differing {
        row.differs(&(&input, at), &out[at], &original[at]);
    } else if number != 0 {
        row.differs(&input, &number, &0);
    }
}

/// The numbers of the bands in random order.
fn shuffled(bands: u32, random: &mut Random) -> Vec<u32> {
    let mut order: Vec<u32> = (0..bands).collect();
    for last in (1..order.len()).rev() {
        order.swap(last, random.within(0, last as i128) as usize);
    }
    order
}

/// Any number of calls, most of them refused, on copies of the run's record and buffers.
fn interleave(input: &Input, state: &State, random: &mut Random, tally: &mut Tally) {
    while random.once_in(3) {
        interleaved_call(input, state, random, tally);
    }
}

fn interleaved_call(input: &Input, state: &State, random: &mut Random, tally: &mut Tally) {
    let mut copy = state.clone();
    if !random.once_in(3) {
        damage::state(&mut copy, random);
    }
    nans::in_state(&mut copy, random);
    match random.within(0, 9) {
        0 => damaged_start(input, random, tally),
        1..=3 => {
            let k = odd_band(&copy, random);
            calls::band(&mut copy, k, tally);
        }
        4 | 5 => {
            calls::advance(&mut copy.run, tally);
        }
        6 => {
            damage::passes(&mut copy.run.setup.settings, random);
            calls::margin(&copy.run.setup, tally);
        }
        _ => {
            // The length by the damaged record, or by the run's own record if that is too long.
            let result = |s| setup_rule(s).out();
            let mut len = result(&copy.run.setup);
            if len > MOST_SAMPLES {
                len = result(&input.setup);
            }
            let mut out = samples(len as usize, random);
            if random.once_in(3) {
                damage::resize(&mut out, random);
            }
            bits::sprinkle(&mut out, random);
            calls::result(&mut copy, &mut out, tally);
        }
    }
}

/// A start call with damaged inputs, mostly refused.
fn damaged_start(input: &Input, random: &mut Random, tally: &mut Tally) {
    let mut damaged = input.clone();
    damage::input(&mut damaged, random);
    nans::in_input(&mut damaged, random);
    calls::start(&mut damaged, tally);
}

/// The number of a band that is done, of one past the last, or any.
fn odd_band(state: &State, random: &mut Random) -> u32 {
    match random.within(0, 3) {
        0 => random.one_of(&[0, BANDS - 1, BANDS, u32::MAX]),
        1 | 2 => (0..BANDS)
            .find(|&k| state.run.done[k as usize] == 1)
            .unwrap_or(BANDS),
        _ => random.within(0, 41) as u32,
    }
}

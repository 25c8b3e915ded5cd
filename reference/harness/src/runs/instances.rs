//! The Specification's instances for runs.

use restoration::{CHANNELS, MAX_GROUP_SIZE_SHIFT, MAX_ITERS, Setup};

use super::{
    calls::{self, Tally},
    draw::{self, Passes},
    input::{Input, State},
    refusals,
};
use crate::{
    convert,
    picture::{agree, samples},
    random::Random,
    report::{Report, Row},
    sigma,
};

pub fn compare(report: &mut Report) {
    let mut random = Random::for_name("instances of runs");
    let mut tally = Tally::new("named");
    let mut row = Row::new("runs", "instances");
    for gabor in [false, true] {
        for iterations in 0..=MAX_ITERS {
            let passes = Passes { gabor, iterations };
            two_bands(passes, &mut random, &mut row, &mut tally);
        }
    }
    for shift in 0..=MAX_GROUP_SIZE_SHIFT {
        for case in sigma::one_above_the_other(shift, &mut random) {
            without_grid(case, &mut row, &mut tally);
        }
    }
    report.add(row);
    let mut row = Row::new("runs", "named refusals");
    refusals::compare(&mut random, &mut row, &mut tally);
    report.add(row);
    tally.report(report);
}

/// Compares a number with the one that is written here.
pub fn expect(what: &str, given: u32, expected: u32, row: &mut Row) {
    row.count(expected);
    if given != expected {
        row.differs(&what, &given, &expected);
    }
}

/// Band 0 twice: 10. Advance with band 1 missing: 11. A run without passes is finished from the start.
fn two_bands(passes: Passes, random: &mut Random, row: &mut Row, tally: &mut Tally) {
    let mut input = draw::with_sides(passes, (16, 16), 16, random);
    input.setup.band_height = 8;
    let (number, run) = calls::start(&mut input, tally);
    expect("start", number, 0, row);
    let mut state = State::new(run, &input);
    let mut out = samples(CHANNELS * 16 * 16, random);
    let count = u32::from(passes.gabor) + passes.iterations;
    for _ in 0..count {
        let number = calls::band(&mut state, 0, tally);
        expect("band 0", number, 0, row);
        let number = calls::band(&mut state, 0, tally);
        expect("band 0 twice", number, 10, row);
        let number = calls::advance(&mut state.run, tally);
        expect("advance with band 1 missing", number, 11, row);
        let number = calls::result(&mut state, &mut out, tally);
        expect("result before the finish", number, 11, row);
        let number = calls::band(&mut state, 2, tally);
        expect("no band 2", number, 10, row);
        let number = calls::band(&mut state, 1, tally);
        expect("band 1", number, 0, row);
        let number = calls::advance(&mut state.run, tally);
        expect("advance", number, 0, row);
    }
    let number = calls::band(&mut state, 0, tally);
    expect("band after the finish", number, 10, row);
    let number = calls::advance(&mut state.run, tally);
    expect("advance after the finish", number, 11, row);
    let number = calls::result(&mut state, &mut out, tally);
    expect("result", number, 0, row);
}

/// Group row 0 has grids, row 1 has none: its blocks have `sigma_for_modular`.
fn without_grid(case: sigma::Case, row: &mut Row, tally: &mut Tally) {
    let mut input = one_iteration(&case);
    let (number, _) = calls::start(&mut input, tally);
    expect("start where groups meet", number, 0, row);
    let missing = case.without_grid(&input.sigmas);
    if missing.is_empty() || !missing.iter().all(|&sigma| agree(sigma, case.modular)) {
        row.differs(&input, &missing, &case.modular);
    }
}

/// A picture of zeros whose filter region is that of a case.
fn one_iteration(case: &sigma::Case) -> Input {
    let filter = convert::region(case.filter());
    let mut settings = draw::defaults(Passes {
        gabor: false,
        iterations: 1,
    });
    settings.epf.sigma_for_modular = case.modular;
    let samples = CHANNELS * (filter.width * filter.height) as usize;
    Input {
        setup: Setup {
            settings,
            ..Setup::whole(filter)
        },
        sigmas: vec![0.0; case.count()],
        frame: case.frame,
        table: case.table.clone(),
        grids: case.grids.clone(),
        first: vec![0.0; samples],
        second: vec![0.0; samples],
    }
}

//! Every number of bands left, right and wrong, in valid records of different states: all but the right one
//! are refused with 9.

use restoration::{CHANNELS, MAX_BANDS, MAX_ITERS, Region, Run, Setup};

use super::{
    draw::{Passes, defaults},
    input::State,
};
use crate::{
    bits,
    report::{Amount, Report, Row},
};

const NONE: Passes = Passes {
    gabor: false,
    iterations: 0,
};
const GABOR: Passes = Passes {
    gabor: true,
    iterations: 0,
};
const ALL: Passes = Passes {
    gabor: true,
    iterations: MAX_ITERS,
};
const MOST: u32 = MAX_BANDS as u32;

/// A valid record, what is left of its pass, and what the calls answer.
struct Valid {
    what: &'static str,
    passes: Passes,
    /// One row each.
    bands: u32,
    pass: u32,
    done: fn(u32) -> bool,
    left: u32,
    /// The numbers of band 0, of an advance and of the result.
    numbers: [u32; 3],
}

/// In the order of the fields.
const fn valid(
    what: &'static str,
    passes: Passes,
    bands: u32,
    pass: u32,
    done: fn(u32) -> bool,
    (left, numbers): (u32, [u32; 3]),
) -> Valid {
    Valid {
        what,
        passes,
        bands,
        pass,
        done,
        left,
        numbers,
    }
}

/// What the calls answer with band 0 open, with it done and others open, with all done, and after the last
/// pass.
const OPEN: [u32; 3] = [0, 11, 11];
const BAND_DONE: [u32; 3] = [10, 11, 11];
const ALL_DONE: [u32; 3] = [10, 0, 11];
const FINISHED: [u32; 3] = [10, 11, 0];

const VALID: [Valid; 16] = [
    valid("one band", GABOR, 1, 0, |_| false, (1, OPEN)),
    valid("one band, done", GABOR, 1, 0, |_| true, (0, ALL_DONE)),
    valid("fresh", ALL, 3, 0, |_| false, (3, OPEN)),
    valid("first done", ALL, 3, 0, |k| k == 0, (2, BAND_DONE)),
    valid("last done", ALL, 3, 0, |k| k == 2, (2, OPEN)),
    valid("middle left", ALL, 3, 1, |k| k != 1, (1, BAND_DONE)),
    valid("all done", ALL, 3, 3, |_| true, (0, ALL_DONE)),
    valid("finished", ALL, 3, 4, |_| false, (0, FINISHED)),
    valid("no passes", NONE, 3, 0, |_| false, (0, FINISHED)),
    valid("256 bands", ALL, MOST, 2, |_| false, (256, OPEN)),
    valid("255 left", ALL, MOST, 2, |k| k == 255, (255, OPEN)),
    valid("half", ALL, MOST, 1, |k| k % 2 == 0, (128, BAND_DONE)),
    valid("one left", ALL, MOST, 3, |k| k != 0, (1, OPEN)),
    valid("256 done", ALL, MOST, 3, |_| true, (0, ALL_DONE)),
    valid("256, finished", ALL, MOST, 4, |_| false, (0, FINISHED)),
    valid("256, no passes", NONE, MOST, 0, |_| false, (0, FINISHED)),
];

pub fn compare(amount: Amount, report: &mut Report) {
    let mut row = Row::new("bands left", "every number");
    for valid in &VALID {
        every_number(valid, amount, &mut row);
    }
    report.add(row);
}

fn every_number(valid: &Valid, amount: Amount, row: &mut Row) {
    let state = valid.state();
    let mut copy = state.clone();
    for number in numbers() {
        if !row.takes(amount) {
            continue;
        }
        copy.run.bands_left = number;
        if number == valid.left {
            compare_calls(valid, valid.numbers, &mut copy.clone(), row);
        } else {
            compare_calls(valid, [9; 3], &mut copy, row);
        }
    }
    copy.run = state.run;
    if !copy.same_bits(&state) {
        row.differs(&valid.what, &"refused calls changed a buffer", &"none");
    }
}

/// All numbers to 65,535, then each power of two and each power of two minus one.
fn numbers() -> impl Iterator<Item = u32> {
    let larger = (16..32).flat_map(|power| [1 << power, u32::MAX >> (31 - power)]);
    (0..1 << 16).chain(larger)
}

/// Band 0, an advance and the result; refused ones answer the record that they are given.
fn compare_calls(valid: &Valid, expected: [u32; 3], state: &mut State, row: &mut Row) {
    let run = state.run;
    let mut out = [0.5; CHANNELS * MAX_BANDS];
    let out = &mut out[..state.first.len()];
    let result = restoration::result(run, &state.first, &state.second, out);
    let advanced = restoration::advance(run);
    let (first, second) = (&mut state.first, &mut state.second);
    let band = restoration::band(run, &state.sigmas, first, second, 0);
    let kept = [
        band.number == 0 || band.run == run,
        advanced.number == 0 || advanced.run == run,
        result == 0 || out.iter().all(|&sample| bits::same(&[sample], &[0.5])),
    ];
    let given = [band.number, advanced.number, result];
    for ((given, kept), expected) in given.into_iter().zip(kept).zip(expected) {
        row.count(expected);
        if given != expected || !kept {
            row.differs(&(valid.what, run.bands_left), &(given, kept), &expected);
        }
    }
}

impl Valid {
    /// A picture of one column.
    fn state(&self) -> State {
        let image = Region::with_size(1, self.bands);
        let mut run = Run {
            setup: Setup {
                settings: defaults(self.passes),
                band_height: 1,
                ..Setup::whole(image)
            },
            pass: self.pass,
            bands_left: self.left,
            ..Run::DEFAULT
        };
        let bands = &mut run.done[..self.bands as usize];
        for (k, flag) in (0..).zip(bands) {
            *flag = (self.done)(k).into();
        }
        let samples = vec![0.25; image.sample_count()];
        let blocks = if self.passes.iterations > 0 {
            self.bands.div_ceil(restoration::BLOCK)
        } else {
            0
        };
        State {
            run,
            sigmas: vec![1.0; blocks as usize],
            first: samples.clone(),
            second: samples,
        }
    }
}

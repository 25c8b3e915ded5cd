//! Calls with any inputs: the number, the record and every buffer are compared with the expected ones.

use core::{fmt::Debug, hint::black_box};

use restoration::{Run, RunAnswer, Setup};

use super::input::{Input, State, counted, fields, place, record_rule, result_part, setup_rule};
use crate::{
    bits,
    expected::runs as rule,
    picture::{self, agree},
    report::{Amount, Report, Row},
};

/// The numbers that each call can answer.
const MARGIN_NUMBERS: [u32; 2] = [0, 9];
const START_NUMBERS: [u32; 7] = [0, 4, 5, 6, 7, 8, 9];
const BAND_NUMBERS: [u32; 4] = [0, 7, 9, 10];
const ADVANCE_NUMBERS: [u32; 3] = [0, 9, 11];
const RESULT_NUMBERS: [u32; 4] = [0, 7, 9, 11];

/// One row of the table for each kind of call.
pub struct Tally {
    margin: Row,
    start: Row,
    band: Row,
    advance: Row,
    result: Row,
}

impl Tally {
    pub fn new(inputs: &'static str) -> Self {
        Self {
            margin: Row::new("margin", inputs),
            start: Row::new("start", inputs),
            band: Row::new("band", inputs),
            advance: Row::new("advance", inputs),
            result: Row::new("result", inputs),
        }
    }

    /// Each number that a call can answer must have been expected often enough.
    pub fn require(&mut self, amount: Amount) {
        self.margin.require(&MARGIN_NUMBERS, amount);
        self.start.require(&START_NUMBERS, amount);
        self.band.require(&BAND_NUMBERS, amount);
        self.advance.require(&ADVANCE_NUMBERS, amount);
        self.result.require(&RESULT_NUMBERS, amount);
        for row in [
            &mut self.start,
            &mut self.band,
            &mut self.advance,
            &mut self.result,
        ] {
            row.require_planes(amount);
        }
    }

    pub fn report(self, report: &mut Report) {
        let calls = [self.start, self.band, self.advance, self.result];
        for row in [self.margin].into_iter().chain(calls) {
            report.add(row);
        }
    }
}

/// Compares the number, and each part that the call may have changed.
fn compare(row: &mut Row, case: &dyn Debug, given: u32, expected: u32, parts: &[(&str, bool)]) {
    row.count(expected);
    if given != expected {
        row.differs(case, &given, &expected);
    } else if let Some((part, _)) = parts.iter().find(|(_, as_expected)| !as_expected) {
        row.differs(case, &format!("number {given}, another {part}"), part);
    }
}

/// The same samples; all NaNs count as the same.
pub fn same_samples(a: &[f32], b: &[f32]) -> bool {
    a.len() == b.len() && a.iter().zip(b).all(|(a, b)| agree(*a, *b))
}

/// Compares the margin, which is 0 in a refusal.
pub fn margin(setup: &Setup, tally: &mut Tally) -> u32 {
    let s = setup_rule(setup);
    let expected = rule::margin(s);
    let margin = if expected == 0 { s.margin() as u32 } else { 0 };
    let answer = restoration::margin(setup.settings);
    let parts = [("margin", answer.margin == margin)];
    compare(&mut tally.margin, setup, answer.number, expected, &parts);
    answer.number
}

/// Answers the number and the record. An accepted start leaves the sets unchanged and fills in the
/// sigmas; a refused one changes nothing and answers zeros. Here and below, an accepted call's record has
/// the number of bands left that its flags give.
pub fn start(input: &mut Input, tally: &mut Tally) -> (u32, Run) {
    let before = input.clone();
    let expected = rule::start(before.rule());
    tally.start.of_planes(before.setup.planes, expected);
    let answer = input.start();
    let (run, sigmas_as_expected) = if expected == 0 {
        let run = counted(Run {
            setup: before.setup,
            ..Run::DEFAULT
        });
        (run, same_samples(&input.sigmas, &before.expected_sigmas()))
    } else {
        let refused = RunAnswer::refused(expected);
        (refused.run, bits::same(&input.sigmas, &before.sigmas))
    };
    let parts = [
        ("record", fields(&answer.run) == fields(&run)),
        ("table", *black_box(&input.table) == before.table),
        ("grids", bits::same(&input.grids, &before.grids)),
        ("first set", bits::same(&input.first, &before.first)),
        ("second set", bits::same(&input.second, &before.second)),
        ("sigmas", sigmas_as_expected),
    ];
    compare(&mut tally.start, &before, answer.number, expected, &parts);
    (answer.number, answer.run)
}

/// An accepted band writes its rows of the result to the set that it does not read, and marks itself
/// done. The samples are compared in the run's result.
pub fn band(state: &mut State, k: u32, tally: &mut Tally) -> u32 {
    let mut before = state.clone();
    let run = record_rule(&before.run);
    let expected = rule::band(run, before.sets(), before.sigmas.len(), k.into());
    tally.band.of_planes(run.setup.planes, expected);
    let answer = restoration::band(
        state.run,
        &state.sigmas,
        &mut state.first,
        &mut state.second,
        k,
    );
    if expected == 0 {
        rewrite(&mut before, state, k);
        before.run.done[k as usize] = 1;
        before.run = counted(before.run);
    }
    state.run = answer.run;
    let parts = [
        ("record", fields(&state.run) == fields(&before.run)),
        ("sigmas", bits::same(&state.sigmas, &before.sigmas)),
        ("first set", bits::same(&state.first, &before.first)),
        ("second set", bits::same(&state.second, &before.second)),
    ];
    let case = (&before, k);
    compare(&mut tally.band, &case, answer.number, expected, &parts);
    answer.number
}

/// Copies the rows that the band has written from the state after the call.
fn rewrite(before: &mut State, after: &mut State, k: u32) {
    let setup = before.run.setup;
    let place = place(&setup);
    let part = picture::result(&place);
    let height = setup.band_height;
    let rows = (k * height, part.height.min((k + 1) * height));
    let ([_, before], [_, after]) = (before.read_and_written(), after.read_and_written());
    for run in picture::runs(setup.planes, place.image, part, rows) {
        before[run.clone()].copy_from_slice(&after[run]);
    }
}

/// An accepted advance goes on to the next pass, with no band done.
pub fn advance(run: &mut Run, tally: &mut Tally) -> u32 {
    let before = *run;
    let expected = rule::advance(record_rule(&before));
    tally.advance.of_planes(before.setup.planes, expected);
    let answer = restoration::advance(before);
    *run = if expected == 0 {
        counted(Run {
            pass: before.pass + 1,
            done: Run::DEFAULT.done,
            ..before
        })
    } else {
        before
    };
    let parts = [("record", fields(run) == fields(&answer.run))];
    compare(&mut tally.advance, &before, answer.number, expected, &parts);
    *run = answer.run;
    answer.number
}

/// An accepted result call copies the result from the set that another pass would read.
pub fn result(state: &mut State, out: &mut [f32], tally: &mut Tally) -> u32 {
    let (before, out_before) = (state.clone(), out.to_vec());
    let run = record_rule(&before.run);
    let expected = rule::result(run, before.sets(), out.len());
    tally.result.of_planes(run.setup.planes, expected);
    let number = restoration::result(state.run, &state.first, &state.second, out);
    let copied = if expected == 0 {
        let setup = state.run.setup;
        let [read, _] = state.read_and_written();
        same_samples(out, &result_part(&setup, read))
    } else {
        bits::same(out, &out_before)
    };
    let parts = [
        ("first set", bits::same(&state.first, &before.first)),
        ("second set", bits::same(&state.second, &before.second)),
        ("slice", copied),
    ];
    let case = (&before, out.len());
    compare(&mut tally.result, &case, number, expected, &parts);
    number
}

//! Compares the proved library's loupe calls with the rules of the Specification (17), and with runs over the
//! widened rectangle and over the whole. Half of the pictures have three planes, half have one. Compares also
//! two runs, one up to a cut and a margin past it and one from the cut on, with the whole. The original has no
//! calls of the loupe and is not needed here. Prints what was compared. Fails if an answer or a bit differs, if
//! a number was not expected often enough, or if a section has fewer inputs, or fewer rectangles compared with
//! whole runs, than follows from its number of draws. With `--some` it takes one input in fifty, for a run
//! under valgrind; so does a debug build, which is slow.

mod calls;
mod damage;
mod expected;
mod limits;
mod pictures;
#[path = "../common/random.rs"]
mod random;
mod rectangles;
#[path = "../common/report.rs"]
mod report;
mod seams;
#[path = "../common/tally.rs"]
mod tally;
mod widened;

use std::process::ExitCode;

use report::{Amount, Function, Report, Section};

const WIDENED: Function = Function::new("loupe_widened", &[0, 4, 6, 9, 15]);
const SMOOTH: Function = Function::new("loupe_smooth", &SMOOTH_NUMBERS);
const LOUPE: Function = Function::new("Loupe::smooth", &SMOOTH_NUMBERS);
/// Two runs, one up to a cut and past it, one from the cut on (`seams.rs`).
const CUT_RUNS: Function = Function::new("cut runs", &[0]);
const SMOOTH_NUMBERS: [u32; 7] = [0, 4, 6, 7, 8, 9, 15];

const SECTIONS: [Section; 9] = [
    ("regions at the limits", widened::LIMITS, widened::limits),
    ("areas at the limit", widened::AREA_PAIRS, widened::areas),
    ("random regions", widened::RANDOM as u64, widened::random),
    (
        "rectangles of pictures",
        rectangles::PICTURES,
        rectangles::random,
    ),
    (
        "all rectangles of strips",
        rectangles::STRIP_RECTANGLES,
        rectangles::all,
    ),
    ("seams of mixed groups", seams::PICTURES, seams::compare),
    ("wrong arguments", damage::INPUTS, damage::compare_damaged),
    (
        "pictures at the limits",
        limits::CORNER_PICTURES,
        limits::corners,
    ),
    (
        "the largest pictures",
        limits::LARGEST_PICTURES,
        limits::largest,
    ),
];

fn main() -> ExitCode {
    let amount = Amount::of_arguments();
    let mut report = Report::new("loupe", &[WIDENED, SMOOTH, LOUPE, CUT_RUNS], amount);
    // The largest pictures take too long under valgrind.
    let sections = match amount {
        Amount::All => &SECTIONS[..],
        Amount::Some => &SECTIONS[..8],
    };
    for section in sections {
        report.section(*section);
    }
    report.finish()
}

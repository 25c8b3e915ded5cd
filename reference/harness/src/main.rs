//! Compares the proved library with the original Rust on the same inputs, and grey pictures with the definition.
//!
//! `harness [--scale N]` prints a table of what was compared and fails if anything differs; N
//! multiplies the random cases. `harness --some` compares at least a thousand cases of each row, or all
//! of them if there are fewer; `harness --some K N` compares share K, counted from 0, of N shares of
//! that. `harness bench [SECTION...]` prints times beside the original's, and the memory of a run.
//! `harness record` prints a sample of the original's answers as text.

mod bench;
mod bits;
mod convert;
mod epf;
mod expected;
mod frame;
mod gabor;
mod grey;
mod header;
mod kinds;
mod loupe;
mod mirror;
mod originals;
mod pass;
mod picture;
mod random;
mod record;
mod rectangles;
mod region;
mod report;
mod runs;
mod scaled;
mod sigma;
mod subject;

use std::process::ExitCode;

use report::{Amount, Report};
use subject::Subject;

/// Random cases over all subjects, before `--scale`.
const RANDOM_CASES: u64 = 1_000_000;

fn main() -> ExitCode {
    let arguments: Vec<String> = std::env::args().skip(1).collect();
    let arguments: Vec<&str> = arguments.iter().map(String::as_str).collect();
    match arguments[..] {
        [] => compare(Amount::All(1), &SECTIONS),
        ["--some"] => compare(Amount::Some, &SECTIONS),
        ["--some", k, n] => match (k.parse(), n.parse()) {
            (Ok(k), Ok(n)) if k < n => compare(Amount::Some, &share(k, n)),
            _ => usage(),
        },
        ["--scale", scale] => match scale.parse() {
            Ok(scale) => compare(Amount::All(scale), &SECTIONS),
            Err(_) => usage(),
        },
        ["bench", ref sections @ ..] if bench::print(sections) => ExitCode::SUCCESS,
        ["record"] => {
            record::print(&subjects());
            ExitCode::SUCCESS
        }
        _ => usage(),
    }
}

fn usage() -> ExitCode {
    eprintln!(
        "usage: harness [--scale N | --some [K N]] | harness bench [SECTION...] | harness record\n\
         sections of bench, all if none is named: {}",
        bench::sections().join(", ")
    );
    ExitCode::from(2)
}

fn subjects() -> Vec<&'static Subject> {
    region::SUBJECTS
        .iter()
        .chain([&mirror::MIRROR, &frame::GROUP_SIZES, &frame::SPLIT_BLOCK])
        .collect()
}

/// What is compared, in the order of the table, and how many rows each section has: a row that is left
/// out is a fault.
const SECTIONS: [Section; 9] = [
    (compare_subjects, 41),
    (header::compare, 23),
    (gabor::compare, 7),
    (sigma::compare, 7),
    (epf::compare, 28),
    (runs::compare, 18),
    (rectangles::compare, 3),
    (loupe::compare, 2),
    (grey::compare, 49),
];

type Section = (fn(Amount, &mut Report), usize);

/// Every n-th section, starting with section k.
fn share(k: usize, n: usize) -> Vec<Section> {
    SECTIONS.into_iter().skip(k).step_by(n).collect()
}

fn compare_subjects(amount: Amount, report: &mut Report) {
    let subjects = subjects();
    let random = RANDOM_CASES.div_ceil(subjects.len() as u64);
    for subject in subjects {
        subject.compare(random, amount, report);
    }
}

fn compare(amount: Amount, sections: &[Section]) -> ExitCode {
    let mut report = Report::new();
    for (section, _) in sections {
        section(amount, &mut report);
    }
    let original_ran_none = gabor::one_row::original_ran_none();
    originals::print_asked();
    if report.finish(sections.iter().map(|(_, rows)| rows).sum()) && original_ran_none {
        ExitCode::SUCCESS
    } else {
        ExitCode::FAILURE
    }
}

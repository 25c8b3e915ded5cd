//! Cut files: compares the proved library with a reader and a writer written from the Specification (16).
//! The original has no such files and is not needed here. Prints what was compared. Fails if an answer or a
//! bit differs, if a number was not expected often enough, or if a section has fewer inputs than it should.
//! With `--some` it takes one input in fifty, for a run under valgrind; so does a debug build, which is slow.

mod damage;
mod expected;
mod limits;
#[path = "../common/random.rs"]
mod random;
mod reading;
mod rectangles;
#[path = "../common/report.rs"]
mod report;
mod writing;

use std::process::ExitCode;

use report::{Amount, Function, Report, Section};

const COUNT: Function = Function::new("cut_count", &[0, 7, 12, 13, 14]);
const REGION: Function = Function::new("cut_region", &[0, 7, 9, 12, 13, 14]);
const READ: Function = Function::new("read_cut", &[0, 7, 9, 12, 13, 14]);
const LENGTH: Function = Function::new("cut_length", &[0, 4, 7, 9, 12]);
const WRITE: Function = Function::new("write_cut", &[0, 4, 7, 9, 12]);

fn main() -> ExitCode {
    let functions = [COUNT, REGION, READ, LENGTH, WRITE];
    let mut report = Report::new("cut files", &functions, Amount::of_arguments());
    let sections: [Section; 7] = [
        (
            "files of 1 to 64 rectangles",
            reading::WHOLE,
            reading::whole,
        ),
        (
            "lengths 0 to 200 of files",
            reading::LENGTHS,
            reading::lengths,
        ),
        ("a byte of a file replaced", reading::BYTES, reading::bytes),
        ("damaged files", reading::DAMAGED.into(), reading::damaged),
        ("tables and slices", writing::TABLES.into(), writing::tables),
        (
            "files near the size limit",
            limits::PAST as u64,
            limits::longest,
        ),
        ("any number of planes", limits::SLICES, limits::any_planes),
    ];
    for section in sections {
        report.section(section);
    }
    report.finish()
}

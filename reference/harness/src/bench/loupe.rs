//! One call of the loupe for a rectangle of a large picture, and a plain run over its widened rectangle.

use std::hint::black_box;

use restoration::{LoupeSetup, MAX_SIDE, Region, accepted};

use super::{
    Picture, Times, best_timed, head,
    memory::stack_of,
    run::{BAND, part_input, to_the_finish},
    timed,
};
use crate::{convert, runs::Input};

const WHOLE: Picture = Picture::square(4080);
/// Left and top minus the margin, 7, are 7 modulo 8, so the widened rectangle is as large as it can be.
const WANTED: Region = Region {
    left: 1902,
    top: 2006,
    width: 256,
    height: 192,
};

pub fn print() {
    let given = part_input(WHOLE, widened());
    let Region { width, height, .. } = given.setup.image;
    head(&[
        "plain run",
        "wanted",
        "widened",
        "loupe, ms",
        "plain run, ms",
        "ratio",
    ]);
    for (name, band_height) in [("bands of 64 rows", BAND), ("one band", MAX_SIDE)] {
        let times = with_run(&given, band_height);
        let [ours, theirs] = [times.ours, times.theirs].map(|time| time / 1e6);
        let Region {
            width: w,
            height: h,
            ..
        } = WANTED;
        println!(
            "| {name} | {w} × {h} | {width} × {height} | {ours:.2} | {theirs:.2} | {:.2} |",
            times.ratio()
        );
    }
    println!();
    memory(&given);
}

fn setup() -> LoupeSetup {
    LoupeSetup {
        whole: WHOLE.region(),
        wanted: WANTED,
        settings: part_input(WHOLE, WANTED).setup.settings,
        ..LoupeSetup::DEFAULT
    }
}

fn widened() -> Region {
    restoration::loupe_widened(setup())
        .value()
        .expect("a rectangle of the picture")
}

/// Times of `loupe_widened` and `loupe_smooth`, and of start, bands and advances. The first set is filled before
/// each.
fn with_run(given: &Input, band_height: u32) -> Times {
    let (mut shown, mut plain) = (given.clone(), given.clone());
    plain.setup.band_height = band_height;
    let mut out = vec![0.0; WANTED.sample_count()];
    let setup = setup();
    let times = best_timed(
        || {
            shown.first.copy_from_slice(&given.first);
            timed(|| call(black_box(setup), &mut shown, &mut out))
        },
        || {
            plain.first.copy_from_slice(&given.first);
            timed(|| to_the_finish(black_box(&mut plain)))
        },
    );
    assert!(
        shown.first == plain.first && shown.second == plain.second,
        "the same passes"
    );
    times
}

fn call(setup: LoupeSetup, input: &mut Input, out: &mut [f32]) {
    let widened = restoration::loupe_widened(setup).value();
    assert_eq!(widened, Ok(input.setup.image));
    let frame = convert::frame(input.frame);
    let (table, grids) = (&input.table, &input.grids);
    let (first, second, sigmas) = (&mut input.first, &mut input.second, &mut input.sigmas);
    let number = restoration::loupe_smooth(setup, frame, table, grids, first, second, sigmas, out);
    accepted(number).expect("an accepted call");
}

/// The buffers of a call, and the stack that it uses.
fn memory(given: &Input) {
    let mut input = given.clone();
    let mut out = vec![0.0; WANTED.sample_count()];
    let setup = setup();
    let stack = stack_of(|| call(setup, &mut input, &mut out));
    let bytes = |samples: usize| 4 * samples;
    let sets = bytes(input.first.len() + input.second.len());
    let (sigmas, result) = (bytes(input.sigmas.len()), bytes(out.len()));
    let groups = bytes(input.grids.len() + input.table.len());
    head(&["one call", "bytes"]);
    println!("| both sets | {sets} |");
    println!("| block sigmas | {sigmas} |");
    println!("| the wanted samples | {result} |");
    println!("| grids and table of the whole picture | {groups} |");
    println!("| buffers together | {} |", sets + sigmas + result + groups);
    println!("| measured: stack | {stack} |");
}

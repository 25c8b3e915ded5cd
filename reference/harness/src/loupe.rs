//! The loupe: rectangles of pictures. Their samples must be those of the original's run over the whole picture, or
//! of the definition's over a grey one.

#[path = "../../../host/restoration/tests/common/tally.rs"]
mod tally;

use restoration::{LoupeSetup, MAX_ITERS, PLANES, Region, Setup};

use tally::Tally;

use crate::{
    convert::{frame, original},
    picture::{self, agree, samples},
    random::Random,
    report::{Amount, Report, Row},
    runs::{self, Input, Passes, setup_rule},
};

/// Pictures before `--scale`, and rectangles of each.
const PICTURES: u64 = 4_000;
const LARGE_PICTURES: u64 = 24;
const RECTANGLES: u64 = 4;
/// Sides of small pictures and of large ones.
const SMALL: u32 = 64;
const LARGE: (u32, u32) = (300, 270);

const NAME: &str = "loupe";

pub fn compare(amount: Amount, report: &mut Report) {
    accepted(NAME, PLANES, amount, report);
}

/// Rectangles of pictures of so many planes.
pub fn accepted(name: &'static str, planes: u32, amount: Amount, report: &mut Report) {
    let mut random = Random::for_name(name);
    let mut row = Row::new(name, "small");
    let mut tally = Tally::default();
    while row.draws(PICTURES, amount) {
        let passes = runs::passes(&mut random);
        let whole = runs::with_passes(passes, SMALL, &mut random).of_planes(planes);
        rectangles(whole, &mut random, &mut row, &mut tally);
    }
    row.require(&[0], amount);
    finish(name, &tally, amount.least(PICTURES * RECTANGLES), &mut row);
    report.add(row);
    let mut row = Row::new(name, "large");
    let mut tally = Tally::default();
    let pictures = amount.few(LARGE_PICTURES);
    for n in 0..pictures {
        let passes = Passes {
            gabor: n % 2 == 0,
            iterations: (n / 2) as u32 % (MAX_ITERS + 1),
        };
        let whole = runs::with_sides(passes, LARGE, LARGE.0, &mut random).of_planes(planes);
        rectangles(whole, &mut random, &mut row, &mut tally);
    }
    finish(name, &tally, pictures * RECTANGLES, &mut row);
    report.add(row);
}

/// Prints the counts of a row. It counts as differing if one is below its minimum.
fn finish(name: &str, tally: &Tally, drawn: u64, row: &mut Row) {
    println!("{name}: {}", tally.summary());
    for (what, count, least) in tally.required(drawn) {
        row.at_least(what, count, least);
    }
}

/// Compares rectangles of a picture's filter region.
fn rectangles(mut whole: Input, random: &mut Random, row: &mut Row, tally: &mut Tally) {
    whole.setup.preserve_outside = 0;
    let (by_original, mixed) = (whole.original(), whole.is_mixed());
    for _ in 0..RECTANGLES {
        let wanted = wanted(whole.setup.filter, random);
        row.of_groups(mixed);
        rectangle(&whole, &by_original, wanted, random, row, tally);
    }
}

/// Compares a rectangle with the whole run of the original or the definition.
fn rectangle(
    whole: &Input,
    by_original: &[f32],
    wanted: Region,
    random: &mut Random,
    row: &mut Row,
    tally: &mut Tally,
) {
    row.count(0);
    let setup = LoupeSetup {
        whole: whole.setup.filter,
        wanted,
        planes: whole.setup.planes,
        settings: whole.setup.settings,
        ..LoupeSetup::DEFAULT
    };
    let widened = match restoration::loupe_widened(setup).value() {
        Ok(widened) => widened,
        Err(refusal) => return row.differs(&(whole, wanted), &refusal, &0),
    };
    let planes = whole.setup.planes;
    let mut own = cut(whole, widened, random);
    let has_passes = setup_rule(&whole.setup).passes() > 0;
    let cut = has_passes && widened != whole.setup.filter;
    tally.add(wanted.samples_in(planes), cut);
    let expected = samples_in(planes, whole.setup.filter, by_original, wanted);
    let mut out = samples(expected.len(), random);
    let number = smooth(setup, &mut own, &mut out);
    let differing = out.iter().zip(&expected).position(|(a, b)| !agree(*a, *b));
    if let Some(at) = differing {
        row.differs(&(whole, wanted, at), &out[at], &expected[at]);
    } else if number != 0 {
        row.differs(&(whole, wanted), &number, &0);
    }
}

/// The picture's widened rectangle as a picture of its own.
pub fn cut(whole: &Input, widened: Region, random: &mut Random) -> Input {
    let setup = Setup {
        image: widened,
        filter: widened,
        ..whole.setup
    };
    let first = samples_in(setup.planes, whole.setup.image, &whole.first, widened);
    Input {
        setup,
        second: samples(first.len(), random),
        first,
        sigmas: samples(setup_rule(&setup).sigmas() as usize, random),
        ..whole.clone()
    }
}

pub fn smooth(setup: LoupeSetup, own: &mut Input, out: &mut [f32]) -> u32 {
    restoration::loupe_smooth(
        setup,
        frame(own.frame),
        &own.table,
        &own.grids,
        &mut own.first,
        &mut own.second,
        &mut own.sigmas,
        out,
    )
}

/// The samples of a part of a region, plane by plane.
pub fn samples_in(planes: u32, region: Region, samples: &[f32], part: Region) -> Vec<f32> {
    let rows = (0, part.height);
    let runs = picture::runs(planes, original(region), original(part), rows);
    runs.flat_map(|run| &samples[run]).copied().collect()
}

/// A rectangle inside a region. Along each axis it reaches the region's end, has one sample, or any length.
pub fn wanted(region: Region, random: &mut Random) -> Region {
    runs::part(region, 1, random, |room, random| {
        match random.within(0, 3) {
            0 => room,
            1 => 1,
            _ => random.within(1, room.into()) as u32,
        }
    })
}

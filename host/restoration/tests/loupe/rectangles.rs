//! Wanted rectangles of pictures, compared with a run over the whole.

use core::iter::repeat_n;

use restoration::{MAX_OFFSET, Region};

use crate::{
    LOUPE, SMOOTH,
    calls::{Nans, compare, compare_widened, part, same},
    expected,
    pictures::{KINDS, PASSES, Picture, any_passes},
    random::Random,
    report::Report,
    tally::Tally,
};

/// Pictures of each kind.
const EACH: usize = 3_000;
pub const PICTURES: u64 = (KINDS.len() * EACH) as u64;
/// Rectangles of each.
const RECTANGLES: u64 = 10;
/// Sides of pictures.
const SIDE: usize = 80;
/// Sides of a strip: long enough for a widened rectangle with both ends cut.
const STRIP: (u32, u32) = (40, 2);
/// Rectangles of all strips, which lie or stand.
pub const STRIP_RECTANGLES: u64 = (KINDS.len() as u32 * PASSES * 2) as u64
    * intervals(STRIP.0) as u64
    * intervals(STRIP.1) as u64;

/// How many intervals a side has.
const fn intervals(side: u32) -> u32 {
    side * (side + 1) / 2
}

pub fn random(report: &mut Report) {
    let mut random = Random::new(2);
    let mut tally = Tally::default();
    for planes in KINDS.into_iter().flat_map(|planes| repeat_n(planes, EACH)) {
        let mut side = || match random.below(8) {
            0 => 1 + random.below(3) as u32,
            _ => 1 + random.below(SIDE) as u32,
        };
        let sides = (side(), side());
        let picture = Picture::new(planes, any_passes(&mut random), sides, &mut random);
        if !report.takes() {
            continue;
        }
        report.input();
        let whole = picture.smoothed();
        for _ in 0..RECTANGLES {
            let wanted = inside(picture.whole, &mut random);
            compare_rectangle(report, &picture, &whole, wanted, &mut random, &mut tally);
        }
    }
    finish(&tally, report, PICTURES * RECTANGLES);
}

/// Every rectangle of strips.
pub fn all(report: &mut Report) {
    let mut random = Random::new(3);
    let mut tally = Tally::default();
    for (planes, passes) in kinds_and_passes() {
        for sides in [STRIP, (STRIP.1, STRIP.0)] {
            let picture = Picture::new(planes, passes, sides, &mut random);
            let whole = picture.smoothed();
            for wanted in every(picture.whole) {
                if report.takes() {
                    report.input();
                    compare_rectangle(report, &picture, &whole, wanted, &mut random, &mut tally);
                }
            }
        }
    }
    finish(&tally, report, STRIP_RECTANGLES);
}

/// Both kinds of pictures with all passes.
pub fn kinds_and_passes() -> impl Iterator<Item = (u32, u32)> {
    let with_passes = |planes| (0..PASSES).map(move |passes| (planes, passes));
    KINDS.into_iter().flat_map(with_passes)
}

fn every(r: Region) -> impl Iterator<Item = Region> {
    let parts = |start: i32, side: u32| {
        let lengths = move |from: u32| (1..=side - from).map(move |n| (start + from as i32, n));
        (0..side).flat_map(lengths)
    };
    parts(r.left, r.width).flat_map(move |(left, width)| {
        parts(r.top, r.height).map(move |(top, height)| Region {
            left,
            top,
            width,
            height,
        })
    })
}

/// Prints the counts and requires their minimums; `drawn` rectangles are drawn if all inputs are compared.
pub fn finish(tally: &Tally, report: &mut Report, drawn: u64) {
    println!("  {}", tally.summary());
    for (what, count, least) in tally.required(drawn) {
        report.require(what, count, least);
    }
}

/// Compares a rectangle with a run over its widened rectangle, and the results of the call and of `Loupe` with
/// the whole run.
pub fn compare_rectangle(
    report: &mut Report,
    picture: &Picture,
    whole: &[f32],
    wanted: Region,
    random: &mut Random,
    tally: &mut Tally,
) {
    let call = picture.call(wanted, random);
    compare_widened(report, call.setup);
    let widened = expected::widened_answer(call.setup).region;
    let Some(out) = compare(report, &call, any_band_height(widened.height, random)) else {
        return;
    };
    tally.add(out.len(), picture.has_passes() && widened != picture.whole);
    let expected = part(picture.whole, whole, wanted);
    let by_loupe = picture
        .loupe()
        .smooth(wanted, |r| part(picture.whole, &picture.samples, r));
    let agrees = |given: &[f32]| same(given, &expected, Nans::Alike);
    let shown = || format!("{call:?}, compared with the whole run");
    report.call(SMOOTH, 0, (agrees(&out), true), shown);
    let by_loupe = by_loupe.map(|given| agrees(&given));
    report.call(LOUPE, 0, (by_loupe, Ok(true)), shown);
}

/// A band height that divides the rows into at most 256 bands.
fn any_band_height(rows: u32, random: &mut Random) -> u32 {
    let least = rows.div_ceil(256).max(1);
    (least + random.below(rows as usize + 1) as u32).min(16_384)
}

/// A rectangle inside a whole: along each axis all of it, at its start or end, one sample, or any.
pub fn inside(whole: Region, random: &mut Random) -> Region {
    let (left, width) = along(whole.left, whole.width, random);
    let (top, height) = along(whole.top, whole.height, random);
    Region {
        left,
        top,
        width,
        height,
    }
}

fn along(start: i32, side: u32, random: &mut Random) -> (i32, u32) {
    let before = random.below(side as usize) as u32;
    let length = 1 + random.below((side - before) as usize) as u32;
    let (before, length) = match random.below(8) {
        0 => (0, side),
        1 => (0, length),
        2 => (before, side - before),
        3 | 4 => (before, 1),
        _ => (before, length),
    };
    // A wanted rectangle that starts past the limit is refused; a few are kept.
    let before = if random.once_in(16) {
        before
    } else {
        before.min(start.abs_diff(MAX_OFFSET))
    };
    (start + before as i32, length.min(side - before))
}

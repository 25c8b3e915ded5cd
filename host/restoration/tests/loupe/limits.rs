//! Pictures whose left and top, sides or area are at the limits.

use restoration::{MAX_OFFSET, Region};

use crate::{
    LOUPE,
    calls::{Nans, compare, same},
    pictures::{KINDS, PASSES, Picture},
    random::Random,
    rectangles::{compare_rectangle, finish, inside, kinds_and_passes},
    report::Report,
    tally::Tally,
};

const OFFSETS: [i32; 2] = [-MAX_OFFSET, MAX_OFFSET];

const SIDES: [(u32, u32); 5] = [(40, 30), (1, 1), (9, 17), (16_384, 1), (1, 16_384)];
/// Random rectangles of each picture, in addition to those at its corners.
const RECTANGLES: u32 = 4;
/// Sides of the largest area.
const LARGEST: [(u32, u32); 2] = [(16_384, 1_024), (4_096, 4_096)];

pub const CORNER_PICTURES: u64 =
    (OFFSETS.len().pow(2) * KINDS.len() * PASSES as usize * SIDES.len()) as u64;
pub const LARGEST_PICTURES: u64 = (LARGEST.len() * KINDS.len()) as u64;
/// Rectangles of each picture: those at its corners, and the random ones.
const EACH: u64 = 4 + RECTANGLES as u64;

/// With the EPF off, filter regions at the smallest and at the largest left and top. With it on, regions of the
/// same sides inside a frame, which are compared with whole runs, and outside every frame, which are refused (8).
pub fn corners(report: &mut Report) {
    let mut random = Random::new(5);
    let mut tally = Tally::default();
    for (left, top) in OFFSETS
        .into_iter()
        .flat_map(|left| OFFSETS.map(|top| (left, top)))
    {
        for ((planes, passes), sides) in
            kinds_and_passes().flat_map(|kind| SIDES.map(|sides| (kind, sides)))
        {
            let mut picture = Picture::new(planes, passes, sides, &mut random);
            if !report.takes() {
                continue;
            }
            report.input();
            let with_epf = picture.settings.epf.iters > 0;
            if with_epf {
                compare_picture(report, &picture, &mut random, &mut tally);
            }
            (picture.whole.left, picture.whole.top) = (left, top);
            if with_epf {
                let wanted = inside(picture.whole, &mut random);
                compare(report, &picture.call(wanted, &mut random), 64);
            } else {
                compare_picture(report, &picture, &mut random, &mut tally);
            }
        }
    }
    finish(&tally, report, CORNER_PICTURES * EACH);
}

/// All passes over filter regions of 16,777,216 samples: small rectangles, and the whole at once.
pub fn largest(report: &mut Report) {
    let mut random = Random::new(6);
    let mut tally = Tally::default();
    for (planes, sides) in KINDS
        .into_iter()
        .flat_map(|planes| LARGEST.map(|sides| (planes, sides)))
    {
        report.input();
        let picture = Picture::new(planes, PASSES - 1, sides, &mut random);
        let whole = compare_picture(report, &picture, &mut random, &mut tally);
        let shown = picture
            .loupe()
            .smooth(picture.whole, |_| picture.samples.clone());
        let agrees = shown.map(|shown| same(&shown, &whole, Nans::Alike));
        report.call(LOUPE, 0, (agrees, Ok(true)), || {
            format!("a whole picture of {planes} planes of {sides:?}")
        });
    }
    finish(&tally, report, LARGEST_PICTURES * EACH);
}

/// Compares rectangles at the corners of a picture and inside it with a run over the whole, and returns that.
fn compare_picture(
    report: &mut Report,
    picture: &Picture,
    random: &mut Random,
    tally: &mut Tally,
) -> Vec<f32> {
    let whole = picture.smoothed();
    let Region {
        left,
        top,
        width,
        height,
    } = picture.whole;
    let corners = [0, width - 1].map(|x| [0, height - 1].map(|y| (x, y)));
    for &(x, y) in corners.as_flattened() {
        let wanted = Region {
            left: left + x as i32,
            top: top + y as i32,
            width: 1,
            height: 1,
        };
        compare_rectangle(report, picture, &whole, wanted, random, tally);
    }
    for _ in 0..RECTANGLES {
        let mut wanted = inside(picture.whole, random);
        if width > 16_384 / height {
            (wanted.width, wanted.height) = (wanted.width.min(300), wanted.height.min(300));
        }
        compare_rectangle(report, picture, &whole, wanted, random, tally);
    }
    whole
}

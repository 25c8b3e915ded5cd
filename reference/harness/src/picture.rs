//! Pictures for the comparison of passes: their regions, their samples, and the rows that are written.

use restoration::{CHANNELS, GREY_PLANES, MAX_OFFSET, MAX_SIDE, PLANES};

use crate::{random::Random, report::Row};

/// Special samples: zeros, subnormals, the largest numbers, infinities and NaN.
const SAMPLES: [u32; 12] = [
    0x0000_0000, 0x8000_0000, 0x0000_0001, 0x807F_FFFF, 0x0080_0000, 0x7F7F_FFFF, 0xFF7F_FFFF,
    0x7F80_0000, 0xFF80_0000, 0x7FC0_0000, 0x7F80_0001, 0xFFFF_FFFF,
];

/// Sides, left and top at their limits.
const SIDES: [u32; 6] = [0, 1, SMALL, MAX_SIDE, MAX_SIDE + 1, u32::MAX];
const CORNERS: [i32; 8] = [
    i32::MIN,
    -MAX_OFFSET - 1,
    -MAX_OFFSET,
    0,
    1,
    MAX_OFFSET,
    MAX_OFFSET + 1,
    i32::MAX,
];
/// Numbers of planes that no picture has.
pub const WRONG_PLANES: [u32; 5] = [0, 2, 4, 255, u32::MAX];
/// The longest side of a small picture.
const SMALL: u32 = 3;

/// The first row, and the row after the last.
pub type Rows = (u32, u32);

/// The region that a pass writes.
pub fn result(place: &oracle::Place) -> oracle::Region {
    if place.preserve_outside {
        place.image
    } else {
        place.filter
    }
}

/// Samples of so many planes of the image.
pub fn set_len(place: &oracle::Place, planes: u32) -> usize {
    planes as usize * place.image.width as usize * place.image.height as usize
}

/// The planes of a set, which has so many.
pub fn split(set: &[f32], planes: u32) -> Vec<Vec<f32>> {
    let plane = set.len() / planes as usize;
    set.chunks_exact(plane).map(<[f32]>::to_vec).collect()
}

/// The planes of a set of three.
pub fn planes(set: &[f32]) -> oracle::Planes {
    let plane = set.len() / CHANNELS;
    core::array::from_fn(|c| set[c * plane..][..plane].to_vec())
}

/// The range in a set of so many planes of each row of a region inside the image, one plane after another.
pub fn runs(
    planes: u32,
    image: oracle::Region,
    part: oracle::Region,
    (from, to): Rows,
) -> impl Iterator<Item = core::ops::Range<usize>> {
    let (width, height) = (image.width as usize, image.height as usize);
    let left = part.left.abs_diff(image.left) as usize;
    let top = part.top.abs_diff(image.top) as usize;
    let columns = part.width as usize;
    (0..planes as usize)
        .flat_map(move |c| (from as usize..to as usize).map(move |row| c * height + top + row))
        .map(move |row| row * width + left..row * width + left + columns)
}

/// Whether an index of a set of the image is in these rows of the result.
pub fn is_written(place: &oracle::Place, (from, to): Rows, at: usize) -> bool {
    let (image, part) = (place.image, result(place));
    let (width, height) = (image.width as usize, image.height as usize);
    let left = part.left.abs_diff(image.left) as usize;
    let top = part.top.abs_diff(image.top) as usize;
    (left..left + part.width as usize).contains(&(at % width))
        && (top + from as usize..top + to as usize).contains(&(at / width % height))
}

/// Copies rows of the result to a set of the image.
pub fn store(place: &oracle::Place, result_planes: &[Vec<f32>], rows: Rows, target: &mut [f32]) {
    let part = result(place);
    let columns = part.width as usize;
    let from = rows.0 as usize * columns..rows.1 as usize * columns;
    let given = result_planes
        .iter()
        .flat_map(|plane| plane[from.clone()].chunks_exact(columns));
    let planes = result_planes.len() as u32;
    for (run, row) in runs(planes, place.image, part, rows).zip(given) {
        target[run].copy_from_slice(row);
    }
}

/// Compares a number and a set with the expected ones. A sample that is written may be another NaN, all
/// others keep their bits.
pub fn compare_answer(
    case: &dyn core::fmt::Debug,
    rows: Rows,
    ours: (u32, &[f32]),
    expected: (u32, &[f32]),
    written: &dyn Fn(usize) -> bool,
    row: &mut Row,
) {
    row.count(expected.0);
    let differs = |&at: &usize| {
        let (a, b) = (ours.1[at], expected.1[at]);
        a.to_bits() != b.to_bits() && !(agree(a, b) && written(at))
    };
    if let Some(at) = (0..expected.1.len()).find(differs) {
        let bits = [ours.1[at], expected.1[at]].map(f32::to_bits);
        row.differs(&(case, rows, at), &bits[0], &bits[1]);
    } else if ours.0 != expected.0 {
        row.differs(&(case, rows), &ours.0, &expected.0);
    }
}

/// The same bits or two NaNs.
pub fn agree(a: f32, b: f32) -> bool {
    a.to_bits() == b.to_bits() || a.is_nan() && b.is_nan()
}

/// Mostly a small region, else one with a side, left or top at a limit.
pub fn any_region(random: &mut Random) -> oracle::Region {
    let mut small = |least: i128, most: i128| random.within(least, most);
    let mut r = oracle::Region {
        left: small(-1, 2) as i32,
        top: small(-1, 2) as i32,
        width: small(1, SMALL.into()) as u32,
        height: small(1, SMALL.into()) as u32,
    };
    match random.within(0, 15) {
        0 => r.left = random.one_of(&CORNERS),
        1 => r.top = random.one_of(&CORNERS),
        2 => r.width = random.one_of(&SIDES),
        3 => r.height = random.one_of(&SIDES),
        4 => (r.width, r.height) = (random.one_of(&SIDES), random.one_of(&SIDES)),
        _ => {}
    }
    r
}

/// A flag, in one draw of eight out of range.
pub fn any_flag(random: &mut Random) -> u32 {
    match random.within(0, 7) {
        0 => random.one_of(&[2, 255, u32::MAX]),
        n => n as u32 % 2,
    }
}

pub fn any_row(random: &mut Random) -> u32 {
    match random.within(0, 9) {
        0 => u32::MAX,
        1 => SMALL + 1,
        _ => random.within(0, SMALL.into()) as u32,
    }
}

/// A number of planes, in one draw of eight out of range.
pub fn any_planes(random: &mut Random) -> u32 {
    match random.within(0, 7) {
        0 => random.one_of(&WRONG_PLANES),
        1..=3 => GREY_PLANES,
        _ => PLANES,
    }
}

/// The length of a small image's set of so many planes, or a wrong one, sometimes that of the other number.
pub fn any_set_len(image: oracle::Region, planes: u32, random: &mut Random) -> usize {
    let plane = if image.width <= SMALL && image.height <= SMALL {
        image.width * image.height
    } else {
        SMALL * SMALL
    };
    let planes = if random.once_in(12) || !matches!(planes, GREY_PLANES | PLANES) {
        random.one_of(&[GREY_PLANES, PLANES])
    } else {
        planes
    };
    any_len((planes * plane) as usize, random)
}

/// The length, or a wrong one.
pub fn any_len(expected: usize, random: &mut Random) -> usize {
    match random.within(0, 9) {
        0 => expected + 1,
        1 => expected.saturating_sub(1),
        2 => 0,
        _ => expected,
    }
}

/// Plain samples; one set in four has special ones among them.
pub fn samples(count: usize, random: &mut Random) -> Vec<f32> {
    let mixed = random.once_in(4);
    (0..count)
        .map(|_| {
            if mixed && random.once_in(8) {
                special(random)
            } else {
                plain(random)
            }
        })
        .collect()
}

/// Between -1 and 1.
pub fn plain(random: &mut Random) -> f32 {
    random.within(-(1 << 24), 1 << 24) as f32 / (1 << 24) as f32
}

pub fn special(random: &mut Random) -> f32 {
    if random.once_in(4) {
        f32::from_bits(random.next() as u32)
    } else {
        f32::from_bits(random.one_of(&SAMPLES))
    }
}

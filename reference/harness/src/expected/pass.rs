//! The checks that all passes over rows share.

use super::{
    MAX_AREA, MAX_OFFSET, MAX_SIDE, Region, Ruled,
    numbers::{NOT_INSIDE, OUT_OF_LIMITS, OUT_OF_RANGE, WRONG_LENGTH},
};

/// Sides, of at least 1, and area are in range, so that lengths can be computed from them.
pub fn sides_in_range(r: Region) -> bool {
    let side = |length| (1..=MAX_SIDE).contains(&length);
    side(r.width) && side(r.height) && r.width * r.height <= MAX_AREA
}

/// Sides, area, left and top are in range.
pub fn in_range(r: Region) -> bool {
    sides_in_range(r) && r.left.abs() <= MAX_OFFSET && r.top.abs() <= MAX_OFFSET
}

/// Samples of so many planes of a region.
pub fn samples(r: Region, planes: u32) -> i128 {
    i128::from(planes) * r.width * r.height
}

/// A picture has one plane or three. Where a number of planes is another, no length that needs it is checked.
pub fn planes_fit(planes: u32) -> bool {
    matches!(planes, 1 | 3)
}

pub fn inside(inner: Region, outer: Region) -> bool {
    outer.left <= inner.left
        && outer.top <= inner.top
        && inner.right() <= outer.right()
        && inner.bottom() <= outer.bottom()
}

/// Both regions are in range, and the filter region lies inside the image region.
pub fn placed(image: Region, filter: Region) -> Ruled<()> {
    if !in_range(image) || !in_range(filter) {
        return Err(OUT_OF_LIMITS);
    }
    inside(filter, image).then_some(()).ok_or(NOT_INSIDE)
}

/// Both sets have the length of all planes of the image region, if there may be so many planes.
pub fn sets(image: Region, planes: u32, lengths: [usize; 2]) -> Ruled<()> {
    let valid = lengths
        .iter()
        .all(|&length| length as i128 == samples(image, planes));
    (valid || !planes_fit(planes))
        .then_some(())
        .ok_or(WRONG_LENGTH)
}

/// A number of planes: 1 or 3.
pub fn planes(number: u32) -> Ruled<()> {
    planes_fit(number).then_some(()).ok_or(OUT_OF_RANGE)
}

/// A flag: 0 or 1.
pub fn flag(number: u32) -> Ruled<bool> {
    match number {
        0 => Ok(false),
        1 => Ok(true),
        _ => Err(OUT_OF_RANGE),
    }
}

/// Rows `from` up to `to` are rows of the result.
pub fn rows(result: Region, (from, to): (i128, i128)) -> Ruled<()> {
    let valid = from <= to && to <= result.height;
    valid.then_some(()).ok_or(OUT_OF_RANGE)
}

//! The specification's rules for these functions, on 128-bit numbers, which never overflow.
//!
//! They say which number a call is refused with. An accepted call is compared with the original, whose
//! answer must be the rule's as well.

mod checks;
pub mod epf;
pub mod gabor;
pub mod header;
pub mod limits;
pub mod loupe;
mod numbers;
mod pass;
pub mod runs;
pub mod sigma;

use limits::*;
use numbers::{OUT_OF_LIMITS, OUT_OF_RANGE};

/// A result or the number of a refusal.
pub type Ruled<T> = Result<T, u32>;

#[derive(Debug, Clone, Copy, PartialEq, Eq)]
pub struct Region {
    pub left: i128,
    pub top: i128,
    pub width: i128,
    pub height: i128,
}

impl Region {
    const ZERO: Self = Self {
        left: 0,
        top: 0,
        width: 0,
        height: 0,
    };

    /// In range for region arithmetic: sides may be 0, and the area has no limit.
    fn in_range(self) -> Ruled<Self> {
        let side = |length| (0..=MAX_SIDE).contains(&length);
        let corner = |place: i128| place.abs() <= MAX_OFFSET;
        let fits = corner(self.left) && corner(self.top) && side(self.width) && side(self.height);
        fits.then_some(self).ok_or(OUT_OF_LIMITS)
    }

    fn right(self) -> i128 {
        self.left + self.width
    }

    fn bottom(self) -> i128 {
        self.top + self.height
    }

    fn empty(self) -> bool {
        self.width == 0 || self.height == 0
    }
}

pub fn is_empty(r: Region) -> Ruled<bool> {
    Ok(r.in_range()?.empty())
}

pub fn right(r: Region) -> Ruled<i128> {
    Ok(r.in_range()?.right())
}

pub fn bottom(r: Region) -> Ruled<i128> {
    Ok(r.in_range()?.bottom())
}

pub fn contains(r: Region, target: Region) -> Ruled<bool> {
    r.in_range()?;
    target.in_range()?;
    Ok(target.empty()
        || r.left <= target.left
            && r.top <= target.top
            && target.right() <= r.right()
            && target.bottom() <= r.bottom())
}

pub fn translate(r: Region, x: i128, y: i128) -> Ruled<Region> {
    r.in_range()?;
    Region {
        left: r.left + x,
        top: r.top + y,
        ..r
    }
    .in_range()
}

/// The intersection of the intervals on each axis; the zero region if either is empty.
pub fn intersection(a: Region, b: Region) -> Ruled<Region> {
    a.in_range()?;
    b.in_range()?;
    let left = a.left.max(b.left);
    let top = a.top.max(b.top);
    let width = a.right().min(b.right()) - left;
    let height = a.bottom().min(b.bottom()) - top;
    if width <= 0 || height <= 0 {
        return Ok(Region::ZERO);
    }
    Region {
        left,
        top,
        width,
        height,
    }
    .in_range()
}

pub fn pad(r: Region, size: i128) -> Ruled<Region> {
    r.in_range()?;
    Region {
        left: r.left - size,
        top: r.top - size,
        width: r.width + 2 * size,
        height: r.height + 2 * size,
    }
    .in_range()
}

/// The cells of 2^factor samples that cover the region.
pub fn downsample(r: Region, factor: i128) -> Ruled<Region> {
    r.in_range()?;
    if factor > MAX_DOWNSAMPLE {
        return Err(OUT_OF_RANGE);
    }
    let cell = 1 << factor;
    let (left, width) = cells(r.left, r.right(), cell);
    let (top, height) = cells(r.top, r.bottom(), cell);
    Region {
        left,
        top,
        width,
        height,
    }
    .in_range()
}

pub fn container_aligned(r: Region, grid_dim: i128) -> Ruled<Region> {
    r.in_range()?;
    let valid = (1..=MAX_ALIGNMENT).contains(&grid_dim) && grid_dim.count_ones() == 1;
    if !valid {
        return Err(OUT_OF_RANGE);
    }
    let (left, width) = cells(r.left, r.right(), grid_dim);
    let (top, height) = cells(r.top, r.bottom(), grid_dim);
    Region {
        left: left * grid_dim,
        top: top * grid_dim,
        width: width * grid_dim,
        height: height * grid_dim,
    }
    .in_range()
}

/// The first cell and the number of cells: floor of the start, ceiling of the end.
fn cells(start: i128, end: i128, cell: i128) -> (i128, i128) {
    let first = start.div_euclid(cell);
    let past = -(-end).div_euclid(cell);
    (first, past - first)
}

pub fn mirror(offset: i128, len: i128) -> Ruled<i128> {
    if !(1..=MAX_SIDE).contains(&len) || offset.abs() > MAX_OFFSET {
        return Err(OUT_OF_RANGE);
    }
    let m = offset.rem_euclid(2 * len);
    Ok(if m < len { m } else { 2 * len - 1 - m })
}

/// Width and height in samples, group dimension, group shift, groups per row, per column and in all.
pub fn group_sizes(
    width: i128,
    height: i128,
    upsampling: i128,
    lf_level: i128,
    group_size_shift: i128,
) -> Ruled<[i128; 7]> {
    let side = |length| (1..=MAX_SIDE).contains(&length);
    if !side(width) || !side(height) {
        return Err(OUT_OF_LIMITS);
    }
    let known = [1, 2, 4, 8].contains(&upsampling);
    if !known || lf_level > MAX_LF_LEVEL || group_size_shift > MAX_GROUP_SIZE_SHIFT {
        return Err(OUT_OF_RANGE);
    }
    let ceil = |length: i128, part: i128| (length + part - 1) / part;
    let samples = |length| ceil(ceil(length, upsampling), BLOCK.pow(lf_level as u32));
    let group_dim = GROUP_DIM << group_size_shift;
    let groups = |length| ceil(samples(length), BLOCK * group_dim);
    Ok([
        samples(width),
        samples(height),
        group_dim,
        group_dim.trailing_zeros().into(),
        groups(width),
        groups(height),
        groups(width) * groups(height),
    ])
}

/// The group of a block column or row, and the block's index inside it.
pub fn split_block(block: i128, group_size_shift: i128) -> Ruled<[i128; 2]> {
    if group_size_shift > MAX_GROUP_SIZE_SHIFT {
        return Err(OUT_OF_RANGE);
    }
    let group_dim = GROUP_DIM << group_size_shift;
    Ok([block / group_dim, block % group_dim])
}

/// Blocks along a side.
fn blocks(side: i128) -> i128 {
    (side + BLOCK - 1) / BLOCK
}

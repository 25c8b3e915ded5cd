//! Pictures that are several tiles wide: the proved code filters at most 64 columns at a time. In steps 1
//! and 2, a tile with samples of the filter region on every side is read from the planes directly, any
//! other tile through a window. Without copied blocks only pictures of three tiles or more have one of the
//! first kind; between copied blocks narrower ones have.

use restoration::BLOCK;

use super::{Kind, around, block_count, with_sigmas};
use crate::{
    picture,
    random::Random,
    report::{Amount, Row},
    sigma::sigma,
};

/// Columns of a tile.
const TILE: u32 = 64;
/// Whole tiles across a picture.
const TILES: core::ops::RangeInclusive<u32> = 1..=4;
/// Columns beyond the whole tiles: none, a few, about a block, and one less than a tile.
const BEYOND: [u32; 7] = [0, 1, 2, BLOCK - 1, BLOCK, BLOCK + 1, TILE - 1];
/// The largest width, also of random ones.
const WIDEST: u32 = 320;
const HIGHEST: u32 = 40;
/// The largest left and top of a filter region, in blocks.
const FARTHEST: i128 = 40;

pub fn compare(kind: Kind, amount: Amount, random: &mut Random, row: &mut Row) {
    for height in 1..=HIGHEST {
        let drawn = random.within((2 * TILE + 1).into(), WIDEST.into()) as u32;
        for width in widths().chain([drawn]) {
            if row.takes(amount) {
                one(kind, (width, height), random, row);
            }
        }
    }
}

fn widths() -> impl Iterator<Item = u32> {
    TILES
        .flat_map(|tiles| BEYOND.map(|beyond| tiles * TILE + beyond))
        .filter(|&width| width <= WIDEST)
}

/// The filter region as the whole image, inside an image, or inside one with negative left and top.
pub fn placed((width, height): (u32, u32), random: &mut Random) -> oracle::Place {
    let mut block = || (BLOCK * random.within(0, FARTHEST) as u32) as i32;
    let anywhere = oracle::Region {
        left: block(),
        top: block(),
        width,
        height,
    };
    let (image, filter) = match random.within(0, 2) {
        0 => (anywhere, anywhere),
        1 => (around(anywhere, random), anywhere),
        _ => before((width, height), random),
    };
    oracle::Place {
        image,
        filter,
        preserve_outside: random.once_in(2),
    }
}

/// An image region with negative left and top, and a filter region at 0, 0.
fn before((width, height): (u32, u32), random: &mut Random) -> (oracle::Region, oracle::Region) {
    let mut margin = || random.within(1, 20) as u32;
    let (left, top) = (margin(), margin());
    let image = oracle::Region {
        left: -(left as i32),
        top: -(top as i32),
        width: left + width + margin(),
        height: top + height + margin(),
    };
    (image, oracle::Region::with_size(width, height))
}

fn one(kind: Kind, sides: (u32, u32), random: &mut Random, row: &mut Row) {
    let place = placed(sides, random);
    let sigmas = sigmas(place.filter, random);
    let band = band_height(picture::result(&place).height, random);
    with_sigmas(place, kind, band, &sigmas, random, row);
}

/// Any band height for these rows that is not a multiple of 8.
pub fn band_height(rows: u32, random: &mut Random) -> u32 {
    let band = random.within(1, rows.into()) as u32;
    if band.is_multiple_of(BLOCK) {
        band + 1
    } else {
        band
    }
}

/// One sigma per block, often that of the previous block, so that all, some or none of the blocks of a
/// strip are copied, in runs of any length.
fn sigmas(filter: oracle::Region, random: &mut Random) -> Vec<f32> {
    let apart = random.one_of(&[1, 2, 8]);
    let mut last = sigma(random);
    (0..block_count(filter))
        .map(|_| {
            if random.once_in(apart) {
                last = sigma(random);
            }
            last
        })
        .collect()
}

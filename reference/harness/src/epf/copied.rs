//! Pictures of every width to 300 and every height to 24 in which none, half, nine in ten or all of the blocks
//! are copied, at random places. The filter region is at every offset of a block in its image, and bands start
//! at every row of a block.

use std::collections::HashSet;

use restoration::BLOCK;

use super::{Kind, Pass, block_count, textured, tiled};
use crate::{
    pass::by_bands,
    picture::{self, plain},
    random::Random,
    report::{Amount, Report, Row},
};

const WIDEST: u32 = 300;
const HIGHEST: u32 = 24;
const SIZES: u64 = WIDEST as u64 * HIGHEST as u64;
/// From one size to the next; it has no divisor in common with their number.
const STRIDE: u64 = 719;
/// Pictures of each size, before `--scale`.
const PICTURES: u64 = 2;

/// How many blocks of ten are copied, on average.
const SHARES: [i128; 4] = [0, 5, 9, 10];
/// Sigmas of copied blocks: plain, the largest below the limit, negative, and zeros.
const COPIED: [u32; 6] = [
    0x3DCC_CCCD, 0x3E99_9999, 0xBF80_0000, 0xFF80_0000, 0, 0x8000_0000,
];
/// A sigma from which on blocks are filtered.
const FILTERED: f32 = 0.3;
/// The largest left and top of a filter region, in blocks.
const FARTHEST: i128 = 40;

pub fn compare(kind: Kind, amount: Amount, report: &mut Report) {
    let name = kind.name;
    let mut random = Random::for_name(&format!("{name}, copied blocks"));
    let mut row = Row::new(name, "copied blocks");
    let mut seen = Seen::default();
    for n in 0.. {
        if !row.draws(SIZES * PICTURES, amount) {
            break;
        }
        let drawn = draw(n);
        one(kind, drawn, &mut random, &mut row, &mut seen);
    }
    if let Amount::All(scale) = amount {
        seen.require(PICTURES * scale, &mut row);
    }
    report.add(row);
}

/// Width and height, and which share of the blocks is copied.
type Drawn = ((u32, u32), usize);

/// Every size once, not in their order, and then again. The next width, the next height and the next picture of a
/// size have another share.
fn draw(n: u64) -> Drawn {
    let at = n * STRIDE % SIZES;
    let sides = [at % u64::from(WIDEST), at / u64::from(WIDEST)].map(|side| side as u32 + 1);
    let share = (u64::from(sides[0] + sides[1]) + n / SIZES) as usize % SHARES.len();
    (sides.into(), share)
}

fn one(kind: Kind, (sides, share): Drawn, random: &mut Random, row: &mut Row, seen: &mut Seen) {
    let place = placed(sides, random);
    let copied: Vec<bool> = (0..block_count(place.filter))
        .map(|_| random.within(0, 9) < SHARES[share])
        .collect();
    let sigmas: Vec<f32> = copied.iter().map(|&copied| sigma(copied, random)).collect();
    let pass = Pass::of(kind, place, kind.settings(random), &sigmas);
    let source = textured(kind.set_len(&place), random);
    let band = tiled::band_height(picture::result(&place).height, random);
    seen.add(&place, share, &copied, band, &source);
    by_bands(&pass, band, &source, random, row);
}

/// A filter region with up to 7 samples of its image on each side.
fn placed((width, height): (u32, u32), random: &mut Random) -> oracle::Place {
    let mut block = || (BLOCK * random.within(0, FARTHEST) as u32) as i32;
    let filter = oracle::Region {
        left: block(),
        top: block(),
        width,
        height,
    };
    let mut margin = || random.within(0, i128::from(BLOCK) - 1) as u32;
    let (left, top) = (margin(), margin());
    let image = oracle::Region {
        left: filter.left - left as i32,
        top: filter.top - top as i32,
        width: left + width + margin(),
        height: top + height + margin(),
    };
    oracle::Place {
        image,
        filter,
        preserve_outside: random.once_in(2),
    }
}

fn sigma(copied: bool, random: &mut Random) -> f32 {
    if copied {
        f32::from_bits(random.one_of(&COPIED))
    } else {
        FILTERED + 4.0 * plain(random).abs()
    }
}

/// A count's name, and whether a sample is of the kind.
type SampleKind = (&'static str, fn(f32) -> bool);
/// Kinds of special samples.
const SPECIAL: [SampleKind; 4] = [
    ("pictures with NaN", f32::is_nan),
    ("pictures with infinities", f32::is_infinite),
    ("pictures with subnormals", f32::is_subnormal),
    ("pictures with -0", |sample| sample.to_bits() == 1 << 31),
];

/// What the pictures of a row had.
#[derive(Default)]
struct Seen {
    pictures: u64,
    sizes: HashSet<(u32, u32)>,
    /// Shares of copied blocks with the filter region's left and top in the image.
    offsets: HashSet<(usize, u32, u32)>,
    /// First rows of bands in their blocks.
    first_rows: HashSet<u32>,
    /// Pictures with both copied and filtered blocks.
    mixed: u64,
    /// Pictures with each kind of special samples.
    special: [u64; SPECIAL.len()],
}

impl Seen {
    fn add(
        &mut self,
        place: &oracle::Place,
        share: usize,
        copied: &[bool],
        band: u32,
        source: &[f32],
    ) {
        let (image, filter) = (place.image, place.filter);
        let left = filter.left.abs_diff(image.left);
        let top = filter.top.abs_diff(image.top);
        self.pictures += 1;
        self.sizes.insert((filter.width, filter.height));
        self.offsets.insert((share, left, top));
        let result = picture::result(place);
        let above = filter.top.abs_diff(result.top);
        let starts = (0..result.height).step_by(band as usize);
        let filtered = starts.filter_map(|from| from.checked_sub(above));
        let inside = filtered.filter(|&from| from < filter.height);
        self.first_rows.extend(inside.map(|from| from % BLOCK));
        self.mixed += u64::from(copied.contains(&true) && copied.contains(&false));
        for (count, (_, is_special)) in self.special.iter_mut().zip(SPECIAL) {
            *count += u64::from(source.iter().any(|&sample| is_special(sample)));
        }
    }

    /// With this many pictures of each size, the row counts as differing if a count is below its minimum.
    fn require(&self, pictures: u64, row: &mut Row) {
        let shares = SHARES.len() as u64;
        let offsets = u64::from(BLOCK * BLOCK);
        let drawn = SIZES * pictures;
        let counts = [
            ("pictures", self.pictures, drawn),
            ("sizes", self.sizes.len() as u64, SIZES),
            (
                "offsets with each share of copied blocks",
                self.offsets.len() as u64,
                shares * offsets,
            ),
            (
                "first rows of bands in a block",
                self.first_rows.len() as u64,
                BLOCK.into(),
            ),
            // Half of the pictures have a share between none and all, but some of them only few blocks.
            (
                "pictures with copied and filtered blocks",
                self.mixed,
                drawn * 2 / 5,
            ),
        ];
        for (what, count, least) in counts {
            row.at_least(what, count, least);
        }
        for (count, (what, _)) in self.special.into_iter().zip(SPECIAL) {
            row.at_least(what, count, drawn / 8);
        }
    }
}

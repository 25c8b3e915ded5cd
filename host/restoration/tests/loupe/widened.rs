//! Widened rectangles of setups at and next to every limit, and of random ones.

use restoration::{LoupeSetup, Region, Settings};

use crate::{calls::compare_widened, random::Random, report::Report};

pub const RANDOM: u32 = 2_500_000;

const ITERATIONS: [u32; 6] = [0, 1, 2, 3, 4, u32::MAX];
const FLAGS: [u32; 3] = [0, 1, 2];
const PLANES: [u32; 6] = [1, 3, 0, 2, 4, u32::MAX];

/// Lefts and tops of the whole.
const STARTS: [i32; 13] = [
    i32::MIN,
    -1_048_577,
    -1_048_576,
    -1_048_575,
    -8,
    -1,
    0,
    1,
    8,
    1_048_568,
    1_048_576,
    1_048_577,
    i32::MAX,
];
/// Its sides.
const SIDES: [u32; 6] = [0, 1, 24, 16_384, 16_385, u32::MAX];
/// Sides whose area is at the limit, just over it, or 0 if 32 bits overflow.
const AREAS: [(u32, u32); 9] = [
    (4_096, 4_096),
    (4_097, 4_096),
    (4_096, 4_097),
    (16_384, 1_024),
    (16_384, 1_025),
    (1_024, 16_384),
    (1_025, 16_384),
    (16_384, 16_384),
    (65_536, 65_536),
];
/// Further ones for wanted rectangles.
const MORE_AREAS: [(u32, u32); 2] = [(1, 1), (0, 16_384)];

/// Wanted starts for each whole along an axis, and sides for each start.
const WANTED: usize = 9 * 6;
pub const LIMITS: u64 = (STARTS.len() * SIDES.len() * WANTED * OTHERS.len() * 2) as u64;
pub const AREA_PAIRS: u64 = (AREAS.len() * (AREAS.len() + MORE_AREAS.len()) * 3) as u64;

/// Start and side along one axis.
type Along = (i32, u32);
/// Those of the whole and of the wanted rectangle.
type Pair = [Along; 2];

/// Every combination along one axis with some along the other, with all settings that the margin depends on.
pub fn limits(report: &mut Report) {
    for pair in pairs() {
        for &other in &OTHERS {
            compare(report, [pair, other]);
            compare(report, [other, pair]);
        }
    }
}

/// Wholes and wanted rectangles with an area at or next to the limit.
pub fn areas(report: &mut Report) {
    for whole in AREAS {
        for wanted in AREAS.into_iter().chain(MORE_AREAS) {
            for start in [-1, 0, 1] {
                let pair = |whole, wanted| [(0, whole), (start, wanted)];
                compare(report, [pair(whole.0, wanted.0), pair(whole.1, wanted.1)]);
            }
        }
    }
}

/// A whole and a wanted rectangle along one axis, at and next to each limit.
fn pairs() -> impl Iterator<Item = Pair> {
    let wholes = STARTS
        .iter()
        .flat_map(|&start| SIDES.map(|side| (start, side)));
    wholes.flat_map(|whole| wanted(whole).into_iter().map(move |wanted| [whole, wanted]))
}

/// Wanted starts and sides next to both ends of a whole, and at the limits.
fn wanted((start, side): Along) -> Vec<Along> {
    let end = start.wrapping_add(side as i32);
    let near = |place: i32| [-1, 0, 1].map(|offset| place.wrapping_add(offset));
    let starts = [near(start), near(end), [-1_048_577, 0, 1_048_577]].concat();
    let rest = |from: i32| end.wrapping_sub(from) as u32;
    let sides = |from: i32| {
        [0, 1, rest(from), rest(from).wrapping_add(1), 16_384, 16_385].map(|side| (from, side))
    };
    starts.into_iter().flat_map(sides).collect()
}

/// The other axis: wanted inside, at either end, all of it, past an end, empty; a whole that does not start at a
/// multiple of 8, and one out of the limits.
const OTHERS: [Pair; 10] = [
    [(0, 100), (20, 30)],
    [(8, 40), (8, 1)],
    [(16, 40), (55, 1)],
    [(0, 1), (0, 1)],
    [(0, 100), (90, 11)],
    [(8, 100), (7, 20)],
    [(0, 100), (50, 0)],
    [(-8, 100), (-3, 5)],
    [(4, 100), (9, 60)],
    [(0, 16_385), (0, 1)],
];

/// Compares regions with these columns and rows, with all settings.
fn compare(report: &mut Report, [columns, rows]: [Pair; 2]) {
    if !report.takes() {
        return;
    }
    report.input();
    let region = |at: usize| Region {
        left: columns[at].0,
        top: rows[at].0,
        width: columns[at].1,
        height: rows[at].1,
    };
    for iterations in ITERATIONS {
        for (flag, planes) in FLAGS
            .into_iter()
            .flat_map(|flag| PLANES.map(|planes| (flag, planes)))
        {
            compare_widened(
                report,
                setup([region(0), region(1)], planes, iterations, flag),
            );
        }
    }
}

fn setup([whole, wanted]: [Region; 2], planes: u32, iterations: u32, flag: u32) -> LoupeSetup {
    let mut settings = Settings::DEFAULT;
    settings.epf.iters = iterations;
    settings.gabor.enabled = flag;
    LoupeSetup {
        whole,
        wanted,
        planes,
        settings,
    }
}

pub fn random(report: &mut Report) {
    let mut random = Random::new(1);
    for _ in 0..RANDOM {
        let [columns, rows] = [(); 2].map(|()| any_pair(&mut random));
        let region = |at: usize| Region {
            left: columns[at].0,
            top: rows[at].0,
            width: columns[at].1,
            height: rows[at].1,
        };
        let iterations = random.one_of(&[0, 1, 2, 3, 0, 1, 2, 3, 4, 256, u32::MAX]);
        let flag = random.one_of(&[0, 1, 0, 1, 0, 1, 2, 256, u32::MAX]);
        let planes = any_planes(&mut random);
        if report.takes() {
            report.input();
            compare_widened(
                report,
                setup([region(0), region(1)], planes, iterations, flag),
            );
        }
    }
}

/// Mostly one or three.
fn any_planes(random: &mut Random) -> u32 {
    if random.once_in(10) {
        let any = random.next() as u32;
        random.one_of(&[0, 2, 4, 257, 259, any, u32::MAX])
    } else {
        random.one_of(&[1, 3])
    }
}

/// Mostly a wanted interval inside the whole, which mostly starts at a block.
fn any_pair(random: &mut Random) -> Pair {
    let any = random.below(2 * 1_048_576 + 1) as i32 - 1_048_576;
    let block = 8 * random.below(131_073) as i32;
    let odd = odd_along(random);
    let start = random.one_of(&[0, 8, 16, block, block, block, any, odd.0]);
    let length = 1 + random.below(4_096) as u32;
    let side = random.one_of(&[length, length, length, 1, 16_384, odd.1]);
    let before = random.below(side.clamp(1, 1 << 20) as usize) as u32;
    let rest = side.wrapping_sub(before);
    let part = 1 + random.below(rest.clamp(1, 1 << 20) as usize) as u32;
    let inside = start.wrapping_add(before as i32);
    let odd = odd_along(random);
    let from = random.one_of(&[inside, inside, inside, inside, inside, odd.0]);
    let part = random.one_of(&[part, part, part, rest, 1, odd.1]);
    [(start, side), (from, part)]
}

/// At a limit, or any numbers.
fn odd_along(random: &mut Random) -> Along {
    if random.once_in(2) {
        (random.one_of(&STARTS), random.one_of(&SIDES))
    } else {
        (random.next() as i32, random.next() as u32)
    }
}

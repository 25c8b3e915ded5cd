//! Random pictures that start accepts.

use restoration::{
    BLOCK, Blocks, GROUP_DIM, GaborSettings, MAX_BANDS, MAX_ITERS, MAX_OFFSET, MAX_SIDE, Region,
    Settings, Setup,
};

use super::input::{Input, setup_rule};
use crate::{
    convert::{epf_settings, region},
    epf, gabor,
    picture::samples,
    random::Random,
    sigma,
};

/// Samples along a side of the smallest group, and places where groups of one to eight times this size
/// meet.
const GROUP: i32 = (BLOCK * GROUP_DIM) as i32;
const MEETINGS: [i32; 8] = [
    -8 * GROUP,
    -GROUP,
    0,
    GROUP,
    2 * GROUP,
    8 * GROUP,
    16 * GROUP,
    1_016 * GROUP,
];

/// Which passes run.
#[derive(Debug, Clone, Copy)]
pub struct Passes {
    pub gabor: bool,
    pub iterations: u32,
}

pub fn passes(random: &mut Random) -> Passes {
    Passes {
        gabor: random.once_in(2),
        iterations: random.within(0, MAX_ITERS.into()) as u32,
    }
}

/// A picture with sides of at most `most` samples.
pub fn picture(most: u32, random: &mut Random) -> Input {
    let passes = passes(random);
    with_passes(passes, most, random)
}

pub fn with_passes(passes: Passes, most: u32, random: &mut Random) -> Input {
    let mut side = || random.within(1, most.into()) as u32;
    let (width, height) = (side(), side());
    with_sides(passes, (width, height), most, random)
}

/// A filter region with these sides, in an image region with sides of at most `most` samples.
pub fn with_sides(
    passes: Passes,
    (width, height): (u32, u32),
    most: u32,
    random: &mut Random,
) -> Input {
    let case = on_blocks(width, height, random);
    let filter = if passes.iterations > 0 {
        region(case.filter())
    } else {
        anywhere(width, height, random)
    };
    let image = around(filter, most, random);
    let preserve_outside = random.once_in(2);
    let rows = if preserve_outside { image } else { filter }.height;
    let setup = Setup {
        image,
        filter,
        preserve_outside: preserve_outside.into(),
        settings: settings(passes, case.modular, random),
        band_height: band_height(rows, random),
        ..Setup::DEFAULT
    };
    with_slices(setup, case, random)
}

/// The inputs of start, with slices of the right lengths.
fn with_slices(setup: Setup, case: sigma::Case, random: &mut Random) -> Input {
    let rule = setup_rule(&setup);
    let set = rule.set() as usize;
    Input {
        setup,
        frame: case.frame,
        table: case.table,
        grids: case.grids,
        first: epf::textured(set, random),
        second: samples(set, random),
        sigmas: samples(rule.sigmas() as usize, random),
    }
}

impl Passes {
    /// Turns these passes on and all others off.
    fn of(self, mut settings: Settings) -> Settings {
        settings.gabor.enabled = self.gabor.into();
        settings.epf.iters = self.iterations;
        settings
    }
}

/// A header's default settings with these passes.
pub fn defaults(passes: Passes) -> Settings {
    passes.of(Settings::DEFAULT)
}

pub fn settings(passes: Passes, modular: f32, random: &mut Random) -> Settings {
    let mut edge = epf::settings(random);
    edge.sigma_for_modular = modular;
    passes.of(Settings {
        gabor: GaborSettings::with_weights(gabor::weights(random)),
        epf: epf_settings(edge),
        ..Settings::DEFAULT
    })
}

/// A filter region with these sides, near a place where groups meet, and grids for it.
fn on_blocks(width: u32, height: u32, random: &mut Random) -> sigma::Case {
    let shift = sigma::seldom_large(random.within(0, 49) as u64);
    let mut groups = || random.within(1, sigma::GROUPS[shift as usize].into()) as u32;
    let groups = (groups(), groups());
    let dim = GROUP_DIM << shift;
    let mut first = |side: u32, groups: u32| {
        let count = side.div_ceil(BLOCK);
        let meeting = dim * random.within(0, groups.into()) as u32;
        let before = random.within(0, count.into()) as u32;
        meeting.saturating_sub(before).min(groups * dim - count)
    };
    let blocks = Blocks {
        left: first(width, groups.0),
        top: first(height, groups.1),
        width,
        height,
    };
    let frame = sigma::frame(shift, groups, random);
    sigma::filled(frame, blocks, groups, false, random)
}

/// A region with left and top near zero, near a place where groups meet, at their limits, or anywhere.
fn anywhere(width: u32, height: u32, random: &mut Random) -> Region {
    let mut corner = || match random.within(0, 7) {
        0..=2 => random.within(-40, 40) as i32,
        3 | 4 => random.one_of(&MEETINGS) - random.within(0, 40) as i32,
        5 => random.one_of(&[-MAX_OFFSET, MAX_OFFSET]),
        _ => random.within((-MAX_OFFSET).into(), MAX_OFFSET.into()) as i32,
    };
    Region {
        left: corner(),
        top: corner(),
        width,
        height,
    }
}

/// An image region around a filter region; one time in four they are the same.
pub fn around(filter: Region, most: u32, random: &mut Random) -> Region {
    if random.once_in(4) {
        return filter;
    }
    by_axis(filter, |corner, side| {
        let room = most - side;
        let before = random.within(0, room.into()) as u32;
        let before = before.min(corner.abs_diff(-MAX_OFFSET));
        let after = random.within(0, (room - before).into()) as u32;
        (corner - before as i32, side + before + after)
    })
}

/// A part of a region. Along each axis it starts where the region does, one time in four, or any number of
/// steps further on; `length` draws how long it is, at most as long as what is left.
pub fn part(
    region: Region,
    step: u32,
    random: &mut Random,
    length: impl Fn(u32, &mut Random) -> u32,
) -> Region {
    by_axis(region, |corner, side| {
        let before = if random.once_in(4) {
            0
        } else {
            step * random.within(0, ((side - 1) / step).into()) as u32
        };
        let before = before.min(corner.abs_diff(MAX_OFFSET));
        (corner + before as i32, length(side - before, random))
    })
}

/// A region made from another one, axis by axis: start and side from start and side.
fn by_axis(r: Region, mut along: impl FnMut(i32, u32) -> (i32, u32)) -> Region {
    let (left, width) = along(r.left, r.width);
    let (top, height) = along(r.top, r.height);
    Region {
        left,
        top,
        width,
        height,
    }
}

/// Any band height with at most `MAX_BANDS` bands, mostly less than the rows.
pub fn band_height(rows: u32, random: &mut Random) -> u32 {
    let least = rows.div_ceil(MAX_BANDS as u32);
    let most = match random.within(0, 7) {
        0 => MAX_SIDE,
        1 => 4,
        _ => rows + 1,
    };
    random.within(least.into(), most.max(least).into()) as u32
}

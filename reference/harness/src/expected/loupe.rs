//! The numbers that the loupe's calls are refused with (17.3, 17.5), and the widened rectangle (17.2).

use super::{
    BLOCK, MAX_AREA, MAX_OFFSET, MAX_SIDE, Region,
    checks::first_that_applies,
    numbers::*,
    pass::{in_range, inside, samples},
    runs::Setup,
    sigma::{self, Frame, all_held, of_entries},
};

/// A setup of the loupe.
#[derive(Debug, Clone, Copy)]
pub struct Loupe {
    pub whole: Region,
    pub wanted: Region,
    pub planes: u32,
    pub gabor: u32,
    pub iterations: i128,
}

impl Loupe {
    /// A run over a region, as the call makes it over the widened rectangle.
    fn over(&self, region: Region) -> Setup {
        Setup {
            image: region,
            filter: region,
            planes: self.planes,
            preserve_outside: 0,
            gabor: self.gabor,
            iterations: self.iterations,
            band_height: MAX_SIDE,
        }
    }

    /// The settings that decide the margin are in range.
    fn margin_fits(&self) -> bool {
        let s = self.over(self.whole);
        s.iterations_fit() && s.gabor_fits()
    }

    /// The widened rectangle; these settings must be in range.
    pub fn widened(&self) -> Region {
        let margin = self.over(self.whole).margin();
        let (whole, wanted) = (self.whole, self.wanted);
        let along = |start: i128, end: i128, first: i128, last: i128| {
            let start = (start - margin).div_euclid(BLOCK) * BLOCK;
            (start.max(first), (end + margin).min(last))
        };
        let (left, right) = along(wanted.left, wanted.right(), whole.left, whole.right());
        let (top, bottom) = along(wanted.top, wanted.bottom(), whole.top, whole.bottom());
        Region {
            left,
            top,
            width: right - left,
            height: bottom - top,
        }
    }

    /// The run over the widened rectangle, whose lengths are those of the call's buffers.
    pub fn run(&self) -> Option<Setup> {
        self.margin_fits().then(|| self.over(self.widened()))
    }

    /// The length of the block sigmas, if it is known.
    pub fn sigmas(&self) -> Option<i128> {
        if self.iterations == 0 {
            return Some(0);
        }
        self.run().map(|run| run.sigmas())
    }

    pub fn out(&self) -> i128 {
        samples(self.wanted, self.planes)
    }

    fn outside_limits(&self) -> bool {
        let Region {
            left,
            top,
            width,
            height,
        } = self.wanted;
        let corner = [left, top].iter().all(|place| place.abs() <= MAX_OFFSET);
        let sides = [width, height].iter().all(|s| (0..=MAX_SIDE).contains(s));
        let wanted = corner && sides && width * height <= MAX_AREA;
        !(in_range(self.whole) && wanted)
    }

    fn wanted_outside(&self) -> bool {
        self.wanted.empty() || !inside(self.wanted, self.whole)
    }

    fn off_blocks(&self) -> bool {
        let whole = self.over(self.whole);
        whole.iterations_fit() && whole.edge_on() && !whole.on_blocks()
    }
}

/// The number of `loupe_widened`.
pub fn widened(s: Loupe) -> u32 {
    first_that_applies(&[
        (OUT_OF_LIMITS, true, &|| s.outside_limits()),
        (WANTED_OUTSIDE, true, &|| s.wanted_outside()),
        (NOT_ON_BLOCKS, true, &|| s.off_blocks()),
        (OUT_OF_RANGE, true, &|| !s.margin_fits()),
        (OUT_OF_RANGE, true, &|| !s.over(s.whole).planes_fit()),
    ])
}

/// The inputs of `loupe_smooth`, with the lengths of its slices.
#[derive(Debug, Clone, Copy)]
pub struct Smooth<'a> {
    pub setup: Loupe,
    pub frame: Frame,
    pub table: &'a [u32],
    pub grids: usize,
    pub sets: [usize; 2],
    pub sigmas: usize,
    pub out: usize,
}

impl Smooth<'_> {
    /// The inputs of the block sigmas of a region.
    fn sigmas_of(&self, filter: Region) -> sigma::Input<'_> {
        sigma::Input {
            on: (self.setup.iterations > 0).into(),
            frame: self.frame,
            filter,
            table: self.table,
            grids: self.grids,
            sigmas: self.sigmas,
        }
    }
}

/// The number of `loupe_smooth`.
pub fn smooth(input: Smooth) -> u32 {
    let s = input.setup;
    let (whole, run) = (s.over(s.whole), s.run());
    let groups = input.frame.groups();
    let table_fits = input.sigmas_of(s.whole).table_fits();
    let entries = of_entries(input.sigmas_of(s.whole));
    let has = |number| entries.contains(&number);
    first_that_applies(&[
        (OUT_OF_LIMITS, true, &|| s.outside_limits()),
        (OUT_OF_LIMITS, true, &|| groups == Err(OUT_OF_LIMITS)),
        (OUT_OF_LIMITS, table_fits, &|| has(OUT_OF_LIMITS)),
        (WANTED_OUTSIDE, true, &|| s.wanted_outside()),
        (NOT_ON_BLOCKS, true, &|| s.off_blocks()),
        (WRONG_LENGTH, whole.planes_fit(), &|| {
            input.out as i128 != s.out()
        }),
        (WRONG_LENGTH, whole.planes_fit(), &|| {
            run.is_some_and(|run| run.wrong_sets(input.sets))
        }),
        (WRONG_LENGTH, groups.is_ok(), &|| !table_fits),
        (WRONG_LENGTH, table_fits, &|| has(WRONG_LENGTH)),
        (WRONG_LENGTH, true, &|| {
            s.sigmas()
                .is_some_and(|count| input.sigmas as i128 != count)
        }),
        (BLOCK_NOT_HELD, table_fits, &|| {
            run.is_some_and(|run| run.edge_on() && !all_held(input.sigmas_of(run.filter)))
        }),
        (OUT_OF_RANGE, true, &|| !s.margin_fits()),
        (OUT_OF_RANGE, true, &|| !whole.planes_fit()),
        (OUT_OF_RANGE, true, &|| groups == Err(OUT_OF_RANGE)),
        (OUT_OF_RANGE, table_fits, &|| has(OUT_OF_RANGE)),
    ])
}

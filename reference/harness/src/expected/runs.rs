//! The numbers that start, band, advance and result are refused with: a table of checks for each.

use super::{
    BLOCK, MAX_BANDS, MAX_ITERS, MAX_SIDE, Region, blocks,
    checks::first_that_applies,
    numbers::*,
    pass::{in_range, inside, planes_fit, samples, sides_in_range},
    sigma::{self, Frame, all_held, of_entries},
};

/// A flag is 0 or this; any other number is out of range.
const YES: u32 = 1;

/// The part of a setup that numbers depend on.
#[derive(Debug, Clone, Copy)]
pub struct Setup {
    pub image: Region,
    pub filter: Region,
    pub planes: u32,
    pub preserve_outside: u32,
    pub gabor: u32,
    pub iterations: i128,
    pub band_height: i128,
}

impl Setup {
    pub fn result(&self) -> Region {
        if self.preserve_outside == YES {
            self.image
        } else {
            self.filter
        }
    }

    pub fn passes(&self) -> i128 {
        i128::from(self.gabor == YES) + self.iterations
    }

    /// How many samples the passes read beyond a sample, in each direction.
    pub fn margin(&self) -> i128 {
        i128::from(self.gabor == YES) + [0, 2, 3, 6][self.iterations as usize]
    }

    /// Bands of the result. `preserve_outside` and the band height must be in range.
    pub fn bands(&self) -> i128 {
        (self.result().height + self.band_height - 1) / self.band_height
    }

    /// Samples of a set.
    pub fn set(&self) -> i128 {
        samples(self.image, self.planes)
    }

    /// Samples of the result.
    pub fn out(&self) -> i128 {
        samples(self.result(), self.planes)
    }

    /// One sigma per block of the filter region; none with the edge filter off.
    pub fn sigmas(&self) -> i128 {
        if self.edge_on() {
            blocks(self.filter.width) * blocks(self.filter.height)
        } else {
            0
        }
    }

    pub fn edge_on(&self) -> bool {
        self.iterations > 0
    }

    pub fn planes_fit(&self) -> bool {
        planes_fit(self.planes)
    }

    fn full_fits(&self) -> bool {
        self.preserve_outside <= YES
    }

    pub fn gabor_fits(&self) -> bool {
        self.gabor <= YES
    }

    pub fn iterations_fit(&self) -> bool {
        self.iterations <= MAX_ITERS
    }

    pub fn on_blocks(&self) -> bool {
        let on_block = |place: i128| place >= 0 && place % BLOCK == 0;
        on_block(self.filter.left) && on_block(self.filter.top)
    }

    fn height_fits(&self) -> bool {
        (1..=MAX_SIDE).contains(&self.band_height)
    }

    pub fn wrong_sets(&self, lengths: [usize; 2]) -> bool {
        lengths.iter().any(|&length| length as i128 != self.set())
    }

    /// Start would not refuse it with 4, 5, 6 or 9.
    pub fn fits(&self) -> bool {
        in_range(self.image)
            && in_range(self.filter)
            && inside(self.filter, self.image)
            && (!self.edge_on() || self.on_blocks())
            && self.iterations_fit()
            && self.planes_fit()
            && self.full_fits()
            && self.gabor_fits()
            && self.height_fits()
            && self.bands() <= MAX_BANDS
    }
}

/// The number of a margin call, which depends on these two settings alone.
pub fn margin(s: Setup) -> u32 {
    first_that_applies(&[
        (OUT_OF_RANGE, true, &|| !s.gabor_fits()),
        (OUT_OF_RANGE, true, &|| !s.iterations_fit()),
    ])
}

/// The inputs of start, with the lengths of its slices.
#[derive(Debug, Clone, Copy)]
pub struct Start<'a> {
    pub setup: Setup,
    pub frame: Frame,
    pub table: &'a [u32],
    pub grids: usize,
    pub sets: [usize; 2],
    pub sigmas: usize,
}

impl Start<'_> {
    /// The inputs of the block sigmas.
    pub fn sigmas_of(&self) -> sigma::Input<'_> {
        sigma::Input {
            on: self.setup.edge_on().into(),
            frame: self.frame,
            filter: self.setup.filter,
            table: self.table,
            grids: self.grids,
            sigmas: self.sigmas,
        }
    }
}

/// The number of a start call.
pub fn start(input: Start) -> u32 {
    let s = input.setup;
    let edge_runs = s.iterations_fit() && s.edge_on();
    let groups = input.frame.groups();
    let table_fits = input.sigmas_of().table_fits();
    let entries = of_entries(input.sigmas_of());
    let has = |number| entries.contains(&number);
    first_that_applies(&[
        (OUT_OF_LIMITS, true, &|| !in_range(s.image)),
        (OUT_OF_LIMITS, true, &|| !in_range(s.filter)),
        (OUT_OF_LIMITS, true, &|| groups == Err(OUT_OF_LIMITS)),
        (OUT_OF_LIMITS, table_fits, &|| has(OUT_OF_LIMITS)),
        (NOT_INSIDE, true, &|| !inside(s.filter, s.image)),
        (NOT_ON_BLOCKS, edge_runs, &|| !s.on_blocks()),
        (WRONG_LENGTH, s.planes_fit(), &|| s.wrong_sets(input.sets)),
        (WRONG_LENGTH, groups.is_ok(), &|| !table_fits),
        (WRONG_LENGTH, table_fits, &|| has(WRONG_LENGTH)),
        (WRONG_LENGTH, s.iterations_fit(), &|| {
            input.sigmas as i128 != s.sigmas()
        }),
        (BLOCK_NOT_HELD, edge_runs && table_fits, &|| {
            !all_held(input.sigmas_of())
        }),
        (OUT_OF_RANGE, true, &|| !s.iterations_fit()),
        (OUT_OF_RANGE, true, &|| !s.planes_fit()),
        (OUT_OF_RANGE, true, &|| groups == Err(OUT_OF_RANGE)),
        (OUT_OF_RANGE, table_fits, &|| has(OUT_OF_RANGE)),
        (OUT_OF_RANGE, true, &|| !s.full_fits()),
        (OUT_OF_RANGE, true, &|| !s.gabor_fits()),
        (OUT_OF_RANGE, true, &|| !s.height_fits()),
        (OUT_OF_RANGE, s.full_fits() && s.height_fits(), &|| {
            s.bands() > MAX_BANDS
        }),
    ])
}

/// A record that a caller passes in, with any values.
#[derive(Debug, Clone, Copy)]
pub struct Record<'a> {
    pub setup: Setup,
    pub pass: i128,
    pub bands_left: i128,
    pub done: &'a [u8],
}

impl Record<'_> {
    pub fn finished(&self) -> bool {
        self.pass == self.setup.passes()
    }

    /// The setup is in range, and accepted calls lead to this pass, these flags and this number of bands
    /// left: a band's flag is 0 or 1, a flag past the last band is 0, and all are 0 once the run is
    /// finished.
    fn fits(&self) -> bool {
        if !self.setup.fits() || self.pass > self.setup.passes() {
            return false;
        }
        let open = if self.finished() {
            0
        } else {
            self.setup.bands()
        };
        let flags_fit = (0..)
            .zip(self.done)
            .all(|(k, &flag)| flag <= u8::from(k < open));
        flags_fit && self.bands_left == self.left()
    }

    /// How many bands of the pass are left, counted one by one (12.5): none if the run is finished. The
    /// setup must be in range.
    pub fn left(&self) -> i128 {
        if self.finished() {
            return 0;
        }
        let open = (0..self.setup.bands()).filter(|&k| !self.is_done(k));
        open.count() as i128
    }

    fn missing(&self) -> bool {
        (0..self.setup.bands()).any(|k| !self.is_done(k))
    }

    fn is_done(&self, k: i128) -> bool {
        u32::from(self.done[k as usize]) == YES
    }
}

/// The number of a band call.
pub fn band(run: Record, sets: [usize; 2], sigmas: usize, k: i128) -> u32 {
    let s = run.setup;
    let sigmas_known = s.iterations_fit() && (!s.edge_on() || sides_in_range(s.filter));
    first_that_applies(&[
        (
            WRONG_LENGTH,
            s.planes_fit() && sides_in_range(s.image),
            &|| s.wrong_sets(sets),
        ),
        (WRONG_LENGTH, sigmas_known, &|| sigmas as i128 != s.sigmas()),
        (OUT_OF_RANGE, true, &|| !run.fits()),
        (BAND_NOT_OPEN, true, &|| run.finished()),
        (BAND_NOT_OPEN, true, &|| k >= s.bands()),
        (BAND_NOT_OPEN, true, &|| run.is_done(k)),
    ])
}

/// The number of an advance call.
pub fn advance(run: Record) -> u32 {
    first_that_applies(&[
        (OUT_OF_RANGE, true, &|| !run.fits()),
        (PASS_NOT_DONE, true, &|| run.finished()),
        (PASS_NOT_DONE, true, &|| run.missing()),
    ])
}

/// The number of a result call.
pub fn result(run: Record, sets: [usize; 2], out: usize) -> u32 {
    let s = run.setup;
    first_that_applies(&[
        (
            WRONG_LENGTH,
            s.planes_fit() && sides_in_range(s.image),
            &|| s.wrong_sets(sets),
        ),
        (
            WRONG_LENGTH,
            s.planes_fit() && s.full_fits() && sides_in_range(s.result()),
            &|| out as i128 != s.out(),
        ),
        (OUT_OF_RANGE, true, &|| !run.fits()),
        (PASS_NOT_DONE, true, &|| !run.finished()),
    ])
}

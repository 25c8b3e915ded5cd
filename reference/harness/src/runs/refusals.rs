//! Named refusals: which number is answered for several faults at once, and which checks are skipped
//! because they depend on a value that is out of range.

use restoration::{
    BLOCK, CHANNELS, GREY_PLANES, GROUP_DIM, MAX_BANDS, MAX_GRID_SIDE, MAX_ITERS, MAX_OFFSET,
    MAX_SIDE, PLANES, Region, Setup, TABLE_ENTRY,
};

use super::{
    calls::{self, Tally},
    draw::{Passes, defaults},
    input::{Input, State},
    instances::expect,
    nans,
};
use crate::{bits, random::Random, report::Row};

/// Two by two blocks; the first block column is in one group, the second in the next.
const REGION: Region = Region {
    left: 1_016,
    top: 0,
    width: 16,
    height: 16,
};
const ALL: Passes = Passes {
    gabor: true,
    iterations: MAX_ITERS,
};
/// A left that no frame reaches.
const PAST_FRAMES: i32 = MAX_SIDE as i32;
const SAMPLES: usize = CHANNELS * 16 * 16;
const BLOCKS: usize = 4;

/// What is wrong, the expected number or numbers, and the damage.
type Damage<T, Expected> = (&'static str, Expected, fn(&mut T));

/// The number that start answers.
const STARTS: &[Damage<Input, u32>] = &[
    ("nothing", 0, |_| {}),
    ("an empty filter region", 4, |h| h.setup.filter.width = 0),
    ("a huge filter region outside the image", 4, |h| {
        h.setup.filter = Region {
            left: 4_000,
            top: 0,
            width: MAX_SIDE,
            height: MAX_SIDE,
        }
    }),
    ("an image side of 16,385, a short set", 4, |h| {
        h.setup.image.height = MAX_SIDE + 1;
        h.first.pop();
    }),
    ("a filter region beside the image", 5, |h| {
        h.setup.filter.left += BLOCK as i32
    }),
    ("regions off their blocks, a short set", 6, |h| {
        off_blocks(&mut h.setup);
        h.second.pop();
    }),
    ("a negative left, band height 0", 6, |h| {
        moved(&mut h.setup, -1_024);
        h.setup.band_height = 0;
    }),
    (
        "4 iterations, off blocks, no sigmas, a narrow grid",
        9,
        |h| {
            h.setup.settings.epf.iters = 4;
            off_blocks(&mut h.setup);
            h.sigmas.clear();
            narrow(h);
        },
    ),
    ("a short second set, band height 0", 7, |h| {
        h.second.pop();
        h.setup.band_height = 0;
    }),
    ("a sigma too many", 7, |h| h.sigmas.push(0.0)),
    ("a table of one entry", 7, |h| h.table.truncate(TABLE_ENTRY)),
    ("a cell too few", 7, |h| {
        h.grids.pop();
    }),
    ("shift 4, a short table, no grids", 9, |h| {
        h.frame.group_size_shift = 4;
        h.table.truncate(2);
        h.grids.clear();
    }),
    ("upsampling 3, no table", 9, |h| {
        h.frame.upsampling = 3;
        h.table.clear();
    }),
    ("LF level 5, presence 2, grid side 1,025", 9, |h| {
        h.frame.lf_level = 5;
        h.table = vec![2, 1, 1, 1, MAX_GRID_SIDE + 1, 1];
    }),
    ("a frame side of 0, no table", 4, |h| {
        h.frame.height = 0;
        h.table.clear();
    }),
    ("presence 2 with sides of 0, no grids", 9, |h| {
        h.table[..TABLE_ENTRY].copy_from_slice(&[2, 0, 0]);
        h.grids.clear();
    }),
    ("presence 2, the other grid's side 1,025", 4, |h| {
        h.table = vec![2, 1, 1, 1, MAX_GRID_SIDE + 1, 2]
    }),
    ("presence 2, the other grid too narrow", 8, |h| {
        h.table = vec![2, 1, 1, 1, 1, 1]
    }),
    ("a grid too narrow", 8, narrow),
    ("a group past the frame, band height 0", 8, |h| {
        h.frame.width = BLOCK * GROUP_DIM;
        h.table.truncate(TABLE_ENTRY);
        h.grids.truncate(2 * GROUP_DIM as usize);
        h.setup.band_height = 0;
    }),
    ("a flag of 2 for the result", 9, |h| {
        h.setup.preserve_outside = 2
    }),
    ("a Gabor flag of 2", 9, |h| {
        h.setup.settings.gabor.enabled = 2
    }),
    ("both flags 255, a short set", 7, |h| {
        h.setup.preserve_outside = 255;
        h.setup.settings.gabor.enabled = 255;
        h.first.pop();
    }),
    ("a filter region at left 16,384, the widest frame", 8, |h| {
        moved(&mut h.setup, PAST_FRAMES - REGION.left);
        h.frame.width = MAX_SIDE;
        h.table = vec![0; TABLE_ENTRY * 16];
        h.grids.clear();
    }),
    ("band height 16,385", 9, |h| {
        h.setup.band_height = MAX_SIDE + 1
    }),
    ("one plane", 0, |h| planes(h, 1, 1)),
    ("one plane, sets of three", 7, |h| planes(h, 1, 3)),
    ("three planes, sets of one", 7, |h| planes(h, 3, 1)),
    ("one plane, a set of one and one of three", 7, |h| {
        h.setup.planes = 1;
        h.first.truncate(SAMPLES / CHANNELS);
    }),
    ("no plane, no samples", 9, |h| planes(h, 0, 0)),
    ("two planes, sets of two", 9, |h| planes(h, 2, 2)),
    ("four planes, sets of four", 9, |h| planes(h, 4, 4)),
    ("255 planes, a short set", 9, |h| {
        h.setup.planes = 255;
        h.first.pop();
    }),
    ("4,294,967,295 planes, band height 0", 9, |h| {
        h.setup.planes = u32::MAX;
        h.setup.band_height = 0;
    }),
    ("two planes, a short table", 7, |h| {
        h.setup.planes = 2;
        h.table.pop();
    }),
    ("two planes, a sigma too many", 7, |h| {
        h.setup.planes = 2;
        h.sigmas.push(0.0);
    }),
    ("no plane, a grid too narrow", 8, |h| {
        h.setup.planes = 0;
        narrow(h);
    }),
    ("two planes, regions off their blocks", 6, |h| {
        h.setup.planes = 2;
        off_blocks(&mut h.setup);
    }),
    ("256 bands", 0, |h| rows(h, MAX_BANDS as u32)),
    ("257 bands", 9, |h| rows(h, MAX_BANDS as u32 + 1)),
    ("edge filter off, off blocks, a narrow grid", 0, |h| {
        edge_off(h);
        moved(&mut h.setup, -1_019);
        narrow(h);
    }),
    ("edge filter off, sigmas passed", 7, |h| {
        h.setup.settings.epf.iters = 0
    }),
    ("edge filter off, a short table", 7, |h| {
        edge_off(h);
        h.table.pop();
    }),
    ("edge filter off, presence 2", 9, |h| {
        edge_off(h);
        h.table[3] = 2;
    }),
    ("edge filter off, grid side 1,025", 4, |h| {
        edge_off(h);
        h.table[4] = MAX_GRID_SIDE + 1;
    }),
];

/// The numbers that band 0, an advance and the result answer.
const RECORDS: &[Damage<State, [u32; 3]>] = &[
    ("nothing", [0, 11, 11], |_| {}),
    ("a short set, band height 0", [7, 9, 7], |t| {
        t.first.pop();
        t.run.setup.band_height = 0;
    }),
    ("a short set, a done band too many", [7, 9, 7], |t| {
        t.second.pop();
        t.run.done[2] = 1;
    }),
    ("the set that is not read too long", [7, 11, 7], |t| {
        t.second.push(0.0)
    }),
    ("band height 0", [9, 9, 9], |t| t.run.setup.band_height = 0),
    ("a done band too many", [9, 9, 9], |t| t.run.done[2] = 1),
    ("a flag of 2", [9, 9, 9], |t| t.run.done[0] = 2),
    ("a flag of 2, one band left", [9, 9, 9], |t| {
        t.run.done[0] = 2;
        t.run.bands_left = 1;
    }),
    ("a flag of 2, no band left", [9, 9, 9], |t| {
        t.run.done[0] = 2;
        t.run.bands_left = 0;
    }),
    ("both bands 2", [9, 9, 9], |t| t.run.done[..2].fill(2)),
    ("both bands 2, no band left", [9, 9, 9], |t| {
        t.run.done[..2].fill(2);
        t.run.bands_left = 0;
    }),
    ("a done band too many, one band left", [9, 9, 9], |t| {
        t.run.done[2] = 1;
        t.run.bands_left = 1;
    }),
    ("a flag of 2 past the count", [9, 9, 9], |t| {
        t.run.done[5] = 2
    }),
    ("a flag of 255, a short set", [7, 9, 7], |t| {
        t.run.done[1] = 255;
        t.first.pop();
    }),
    ("a flag of 2 for the result", [9, 9, 9], |t| {
        t.run.setup.preserve_outside = 2
    }),
    ("a Gabor flag of 2", [9, 9, 9], |t| {
        t.run.setup.settings.gabor.enabled = 2
    }),
    ("one plane", [0, 11, 11], |t| one_plane(t)),
    ("one plane, sets of three", [7, 11, 7], |t| {
        t.run.setup.planes = 1
    }),
    ("three planes, sets of one", [7, 11, 7], |t| {
        one_plane(t);
        t.run.setup.planes = 3;
    }),
    ("no plane, a short set", [9, 9, 9], |t| {
        t.run.setup.planes = 0;
        t.first.pop();
    }),
    ("two planes, a short set", [9, 9, 9], |t| {
        t.run.setup.planes = 2;
        t.second.pop();
    }),
    ("two planes, a sigma too many", [7, 9, 9], |t| {
        t.run.setup.planes = 2;
        t.sigmas.push(0.0);
    }),
    ("four planes, finished", [9, 9, 9], |t| {
        t.run.setup.planes = 4;
        finish(t);
    }),
    ("one plane, finished", [10, 11, 0], |t| {
        one_plane(t);
        finish(t);
    }),
    ("4,294,967,295 planes", [9, 9, 9], |t| {
        t.run.setup.planes = u32::MAX
    }),
    ("the last flag", [9, 9, 9], |t| {
        t.run.done[MAX_BANDS - 1] = 1
    }),
    ("a pass past the last", [9, 9, 9], |t| t.run.pass = 5),
    ("a pass past the last, no band left", [9, 9, 9], |t| {
        t.run.pass = 5;
        t.run.bands_left = 0;
    }),
    ("finished", [10, 11, 0], finish),
    ("finished with a done band", [9, 9, 9], |t| {
        finish(t);
        t.run.done[0] = 1;
    }),
    ("finished with its bands left", [9, 9, 9], |t| {
        finish(t);
        t.run.bands_left = 2;
    }),
    ("finished with one band left", [9, 9, 9], |t| {
        finish(t);
        t.run.bands_left = 1;
    }),
    ("band 0 done", [10, 11, 11], |t| {
        t.run.done[0] = 1;
        t.run.bands_left = 1;
    }),
    ("band 1 done", [0, 11, 11], |t| {
        t.run.done[1] = 1;
        t.run.bands_left = 1;
    }),
    ("all bands done", [10, 0, 11], |t| {
        t.run.done[..2].fill(1);
        t.run.bands_left = 0;
    }),
    ("one band left too many", [9, 9, 9], |t| {
        t.run.bands_left = 3
    }),
    ("one band left too few", [9, 9, 9], |t| t.run.bands_left = 1),
    ("no band left, but both open", [9, 9, 9], |t| {
        t.run.bands_left = 0
    }),
    ("256 bands left", [9, 9, 9], |t| {
        t.run.bands_left = MAX_BANDS as u32
    }),
    ("4,294,967,295 bands left", [9, 9, 9], |t| {
        t.run.bands_left = u32::MAX
    }),
    ("all bands done, 4,294,967,295 left", [9, 9, 9], |t| {
        t.run.done[..2].fill(1);
        t.run.bands_left = u32::MAX;
    }),
    ("all bands done, one left", [9, 9, 9], |t| {
        t.run.done[..2].fill(1);
        t.run.bands_left = 1;
    }),
    ("a band left too many, a short set", [7, 9, 7], |t| {
        t.run.bands_left = 3;
        t.first.pop();
    }),
    ("a band left too few, a sigma too many", [7, 9, 9], |t| {
        t.run.bands_left = 1;
        t.sigmas.push(0.0);
    }),
    // Band 0 is not open (10); the pass is not done, nor the run finished (11).
    ("band 0 done, two bands left", [9, 9, 9], |t| {
        t.run.done[0] = 1
    }),
    ("band 0 done, no band left", [9, 9, 9], |t| {
        t.run.done[0] = 1;
        t.run.bands_left = 0;
    }),
    ("an empty image region, a short set", [9, 9, 9], |t| {
        t.run.setup.image.width = 0;
        t.first.pop();
    }),
    ("an image region too far, a short set", [7, 9, 7], |t| {
        t.run.setup.image.left = MAX_OFFSET + 1;
        t.first.pop();
    }),
    // Start answers 8 for every frame; a record has no frame, and is accepted.
    ("a filter region at left 16,384", [0, 11, 11], |t| {
        moved(&mut t.run.setup, PAST_FRAMES - REGION.left)
    }),
    ("4 iterations, no sigmas", [9, 9, 9], |t| {
        t.run.setup.settings.epf.iters = 4;
        t.sigmas.clear();
    }),
    ("an empty filter region, no sigmas", [9, 9, 9], |t| {
        t.run.setup.filter.height = 0;
        t.sigmas.clear();
    }),
    ("an empty filter region, edge filter off", [7, 9, 9], |t| {
        t.run.setup.filter.height = 0;
        t.run.setup.settings.epf.iters = 0;
    }),
    ("a huge filter region, full planes", [9, 9, 9], |t| {
        t.run.setup.filter.width = MAX_SIDE;
        t.run.setup.filter.height = MAX_SIDE;
        t.run.setup.preserve_outside = 1;
    }),
    ("off blocks, a sigma too few", [7, 9, 9], |t| {
        off_blocks(&mut t.run.setup);
        t.sigmas.pop();
    }),
    ("edge filter off, sigmas passed", [7, 11, 11], |t| {
        t.run.setup.settings.epf.iters = 0
    }),
];

pub fn compare(random: &mut Random, row: &mut Row, tally: &mut Tally) {
    for (what, expected, damage) in STARTS {
        let mut input = valid();
        damage(&mut input);
        nans::in_input(&mut input, random);
        calls::margin(&input.setup, tally);
        let (number, _) = calls::start(&mut input, tally);
        expect(what, number, *expected, row);
    }
    let mut input = valid();
    let (_, run) = calls::start(&mut input, tally);
    for (what, expected, damage) in RECORDS {
        let mut state = State::new(run, &input);
        damage(&mut state);
        nans::in_state(&mut state, random);
        // The result's slice has the right length, then one sample less.
        let s = state.run.setup;
        let grey = s.planes == GREY_PLANES;
        let mut out = vec![0.0; if grey { SAMPLES / CHANNELS } else { SAMPLES }];
        bits::sprinkle(&mut out, random);
        let number = calls::result(&mut state, &mut out, tally);
        expect(what, number, expected[2], row);
        out.pop();
        let number = calls::result(&mut state, &mut out, tally);
        let part = s.preserve_outside == 1 || s.preserve_outside == 0 && s.filter.height > 0;
        let known = part && matches!(s.planes, GREY_PLANES | PLANES);
        expect(what, number, if known { 7 } else { expected[2] }, row);
        let number = calls::band(&mut state.clone(), 0, tally);
        expect(what, number, expected[0], row);
        let number = calls::advance(&mut state.run, tally);
        expect(what, number, expected[1], row);
    }
}

/// Inputs that start accepts: all passes, two bands of 8 rows.
fn valid() -> Input {
    Input {
        setup: Setup {
            settings: defaults(ALL),
            band_height: 8,
            ..Setup::whole(REGION)
        },
        frame: oracle::Frame {
            width: 2_048,
            height: 1_024,
            upsampling: 1,
            lf_level: 0,
            group_size_shift: 0,
        },
        table: vec![1, GROUP_DIM, 2, 1, 1, 2],
        grids: vec![1.0; 2 * (GROUP_DIM as usize + 1)],
        first: vec![0.5; SAMPLES],
        second: vec![0.25; SAMPLES],
        sigmas: vec![0.0; BLOCKS],
    }
}

/// A setup of so many planes, and sets of so many.
fn planes(h: &mut Input, planes: u32, of_sets: usize) {
    h.setup.planes = planes;
    let samples = SAMPLES / CHANNELS * of_sets;
    h.first.resize(samples, 0.5);
    h.second.resize(samples, 0.25);
}

/// A grey picture.
fn one_plane(t: &mut State) {
    t.run.setup.planes = GREY_PLANES;
    t.first.truncate(SAMPLES / CHANNELS);
    t.second.truncate(SAMPLES / CHANNELS);
}

/// All four passes are over.
fn finish(t: &mut State) {
    t.run.pass = 4;
    t.run.bands_left = 0;
}

fn moved(setup: &mut Setup, right: i32) {
    setup.image.left += right;
    setup.filter.left += right;
}

fn off_blocks(setup: &mut Setup) {
    moved(setup, 1);
}

/// The first grid has one row where two are needed.
fn narrow(h: &mut Input) {
    h.table[2] = 1;
    h.grids.truncate(GROUP_DIM as usize + 2);
}

fn edge_off(h: &mut Input) {
    h.setup.settings.epf.iters = 0;
    h.sigmas.clear();
}

/// A picture of this many rows, one per band.
fn rows(h: &mut Input, rows: u32) {
    h.setup.image.height = rows;
    h.setup.filter.height = rows;
    h.setup.band_height = 1;
    let blocks = rows.div_ceil(BLOCK);
    h.table = vec![1, GROUP_DIM, blocks, 1, 1, blocks];
    h.grids.resize(((GROUP_DIM + 1) * blocks) as usize, 1.0);
    let samples = CHANNELS * 16 * rows as usize;
    h.first.resize(samples, 0.5);
    h.second.resize(samples, 0.25);
    h.sigmas.resize(2 * blocks as usize, 0.0);
}

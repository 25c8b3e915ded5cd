//! Damages the inputs of calls in one to four places: any field of a setup or a record, the frame, its
//! table and grids, and the lengths of slices.

use restoration::{
    BLOCK, CHANNELS, MAX_AREA, MAX_BANDS, MAX_OFFSET, MAX_SIDE, Region, Run, Settings, Setup,
    TABLE_ENTRY,
};

use super::input::{Input, State, counted, setup_rule};
use crate::{
    picture::{any_len, special},
    random::Random,
    sigma::{self, SIDES},
};

/// Left and top at their limits, and sides whose area is at its limit.
const CORNERS: [i32; 8] = [
    i32::MIN,
    -MAX_OFFSET - 1,
    -MAX_OFFSET,
    -(BLOCK as i32),
    BLOCK as i32,
    MAX_OFFSET,
    MAX_OFFSET + 1,
    i32::MAX,
];
const AREAS: [(u32, u32); 6] = [
    (MAX_SIDE, MAX_AREA / MAX_SIDE),
    (MAX_SIDE, MAX_AREA / MAX_SIDE + 1),
    (MAX_AREA.isqrt(), MAX_AREA.isqrt()),
    (MAX_AREA.isqrt() + 1, MAX_AREA.isqrt()),
    (MAX_SIDE, MAX_SIDE),
    (u32::MAX, u32::MAX),
];
const BAND_HEIGHTS: [u32; 7] = [0, 1, 2, BLOCK, MAX_SIDE, MAX_SIDE + 1, u32::MAX];
/// Numbers of planes, most of them out of range.
const PLANES_DRAWN: [u32; 9] = [1, 3, 1, 0, 2, 4, 255, 256, u32::MAX];
/// Flags, as `u32` and as bytes: mostly 0 or 1.
const FLAGS: [u32; 8] = [0, 1, 0, 1, 2, 255, 256, u32::MAX];
const BYTES: [u8; 7] = [0, 1, 0, 1, 2, 128, 255];
/// No slice is made longer than this to fit a damaged setup.
pub const MOST_SAMPLES: i128 = 1 << 16;

/// The inputs of start.
pub fn input(h: &mut Input, random: &mut Random) {
    for _ in 0..random.within(1, 4) {
        match random.within(0, 11) {
            0..=4 => setup(&mut h.setup, random),
            5 => sigma::damage_frame(&mut h.frame, random),
            6 => sigma::damage_table(&mut h.table, random),
            7 => narrow(h, random),
            8 => move_both(&mut h.setup, random),
            9 => resize(&mut h.grids, random),
            _ => lengths([&mut h.first, &mut h.second, &mut h.sigmas], random),
        }
    }
    if random.once_in(2) {
        let s = h.setup;
        refit(&s, [&mut h.first, &mut h.second, &mut h.sigmas]);
    }
}

/// The inputs of a band, an advance or a result call.
pub fn state(t: &mut State, random: &mut Random) {
    for _ in 0..random.within(1, 4) {
        match random.within(0, 8) {
            0..=2 => setup(&mut t.run.setup, random),
            3..=5 => progress(&mut t.run, random),
            _ => lengths([&mut t.first, &mut t.second, &mut t.sigmas], random),
        }
    }
    if random.once_in(2) {
        let s = t.run.setup;
        refit(&s, [&mut t.first, &mut t.second, &mut t.sigmas]);
    }
    if random.once_in(2) {
        recount(&mut t.run);
    }
}

/// Any field: the pattern names all of them, so that a new one is not forgotten.
fn setup(s: &mut Setup, random: &mut Random) {
    let Setup {
        image,
        filter,
        planes,
        preserve_outside,
        settings,
        band_height,
    } = s;
    match random.within(0, 11) {
        0 | 1 => region(image, random),
        2 | 3 => region(filter, random),
        4 => *preserve_outside = random.one_of(&FLAGS),
        5 | 6 => passes(settings, random),
        7 | 8 => *band_height = random.one_of(&BAND_HEIGHTS),
        9 | 10 => *planes = random.one_of(&PLANES_DRAWN),
        _ => floats(settings, random),
    }
}

/// The two settings that say which passes run.
pub fn passes(s: &mut Settings, random: &mut Random) {
    if random.once_in(2) {
        s.gabor.enabled = random.one_of(&FLAGS);
    } else {
        s.epf.iters = random.one_of(&[0, 1, 2, 3, 4, 5, 1 << 31, u32::MAX]);
    }
}

pub fn region(r: &mut Region, random: &mut Random) {
    let near = |n: i32, random: &mut Random| n.wrapping_add(random.within(-9, 9) as i32);
    match random.within(0, 8) {
        0 => r.left = random.one_of(&CORNERS),
        1 => r.top = random.one_of(&CORNERS),
        2 => r.width = random.one_of(&SIDES),
        3 => r.height = random.one_of(&SIDES),
        4 => (r.width, r.height) = random.one_of(&AREAS),
        5 => r.left = near(r.left, random),
        6 => r.top = near(r.top, random),
        7 => r.width = near(r.width as i32, random) as u32,
        _ => r.height = near(r.height as i32, random) as u32,
    }
}

/// No refusal depends on a float.
fn floats(settings: &mut Settings, random: &mut Random) {
    let channel = |random: &mut Random| random.within(0, CHANNELS as i128 - 1) as usize;
    settings.gabor.weights[channel(random)][0] = special(random);
    settings.epf.channel_scale[channel(random)] = special(random);
    settings.epf.sigma.border_sad_mul = special(random);
    settings.epf.sigma_for_modular = special(random);
}

/// Moves both regions: by whole blocks, out of the grids, or off the blocks.
fn move_both(s: &mut Setup, random: &mut Random) {
    let ways = [-8, 8, 16, 40, 1_024, 16_384, -3, 1, 4];
    let (right, down) = match random.within(0, 2) {
        0 => (random.one_of(&ways), 0),
        1 => (0, random.one_of(&ways)),
        _ => (random.one_of(&ways), random.one_of(&ways)),
    };
    for r in [&mut s.image, &mut s.filter] {
        r.left = r.left.wrapping_add(right);
        r.top = r.top.wrapping_add(down);
    }
}

/// Takes a column or a row from a grid, and its cells from the slice.
pub fn narrow(h: &mut Input, random: &mut Random) {
    let present = |entry: &&mut [u32]| entry[0] == 1 && entry[1].min(entry[2]) > 1;
    let entries = h.table.chunks_exact_mut(TABLE_ENTRY);
    let mut grids: Vec<&mut [u32]> = entries.filter(present).collect();
    // The largest grid has blocks of the filter region.
    grids.sort_by_key(|entry| core::cmp::Reverse(u64::from(entry[1]) * u64::from(entry[2])));
    let Some(entry) = grids.first_mut() else {
        return;
    };
    let side = random.within(1, 2) as usize;
    entry[side] -= 1;
    let lost = entry[3 - side] as usize;
    h.grids.truncate(h.grids.len().saturating_sub(lost));
}

/// The pass, the number of bands left and the flags of the bands: all fields of a record beside its
/// setup.
fn progress(run: &mut Run, random: &mut Random) {
    let Run {
        setup,
        pass,
        bands_left,
        done,
    } = run;
    match random.within(0, 7) {
        0 | 1 => *pass = random.one_of(&[0, 1, 2, 3, 4, 5, u32::MAX]),
        2 => done[random.within(0, MAX_BANDS as i128 - 1) as usize] = random.one_of(&BYTES),
        3 => *done = [random.one_of(&BYTES); MAX_BANDS],
        4 => {
            // All bands of the pass, or one too many.
            let s = setup_rule(setup);
            let bands = if s.band_height > 0 { s.bands() } else { 0 };
            let bands = bands.min(MAX_BANDS as i128 - 1) as usize + usize::from(random.once_in(2));
            *done = core::array::from_fn(|k| u8::from(k < bands));
        }
        5 => {
            let k = random.within(0, 7) as usize;
            done[k] ^= random.one_of(&[1, 1, 2, 255]);
        }
        _ => *bands_left = another_number(*bands_left, random),
    }
}

/// One more or one fewer, a limit, or any number.
fn another_number(n: u32, random: &mut Random) -> u32 {
    let any = random.next() as u32;
    random.one_of(&[
        n.wrapping_add(1),
        n.wrapping_sub(1),
        0,
        MAX_BANDS as u32,
        u32::MAX,
        any,
    ])
}

fn lengths(slices: [&mut Vec<f32>; 3], random: &mut Random) {
    if random.once_in(8) {
        let [first, second, _] = slices;
        return of_other_planes([first, second], random);
    }
    resize(slices[random.within(0, 2) as usize], random);
}

/// Both sets as long as sets of the other number of planes would be.
pub fn of_other_planes(sets: [&mut Vec<f32>; 2], random: &mut Random) {
    let more = random.once_in(2);
    for set in sets {
        let length = set.len();
        let other = if more {
            CHANNELS * length
        } else {
            length / CHANNELS
        };
        if other as i128 <= MOST_SAMPLES {
            set.resize(other, 1.0);
        }
    }
}

pub fn resize(slice: &mut Vec<f32>, random: &mut Random) {
    let length = any_len(slice.len(), random);
    slice.resize(length, 1.0);
}

/// Makes the lengths fit the setup, so that its other faults are reached.
fn refit(s: &Setup, slices: [&mut Vec<f32>; 3]) {
    let rule = setup_rule(s);
    let expected = [rule.set(), rule.set(), rule.sigmas()];
    for (slice, expected) in slices.into_iter().zip(expected) {
        if expected <= MOST_SAMPLES {
            slice.resize(expected as usize, 1.0);
        }
    }
}

/// Makes the number of bands left fit the setup and the flags, for the same reason.
fn recount(run: &mut Run) {
    if setup_rule(&run.setup).fits() {
        *run = counted(*run);
    }
}

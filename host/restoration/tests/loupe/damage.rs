//! Calls with one to three wrong arguments: which number is given, and that a refused call leaves every bit.

use core::iter::repeat_n;

use restoration::{Frame, Region, Settings, TABLE_ENTRY};

use crate::{
    calls::{Call, compare, compare_loupe, compare_widened},
    expected,
    pictures::{KINDS, Picture, any_passes, noise},
    random::Random,
    rectangles::inside,
    report::Report,
};

/// Pictures of each kind.
const PICTURES: usize = 5_000;
/// Calls for a rectangle of each.
const CALLS: usize = 20;
pub const INPUTS: u64 = (KINDS.len() * PICTURES * CALLS) as u64;
/// Sides of pictures.
const SIDE: usize = 30;
/// How often a wrong number of planes must be given with each other number that is expected then.
const LEAST: u64 = 500;

const STARTS: [i32; 8] = [
    i32::MIN,
    -1_048_577,
    -1_048_576,
    -8,
    8,
    1_048_576,
    1_048_577,
    i32::MAX,
];
const SIDES: [u32; 7] = [0, 1, 8, 1_024, 16_384, 16_385, u32::MAX];
const AREAS: [(u32, u32); 5] = [
    (4_096, 4_096),
    (4_097, 4_096),
    (16_384, 1_024),
    (1_025, 16_384),
    (16_384, 16_384),
];
/// Offsets that are multiples of 8 and others, into other groups and past every frame.
const MOVES: [i32; 10] = [-8, 8, 16, 40, 1_024, 16_384, -3, 1, 4, -1_024];
/// Numbers of planes, most of which are wrong.
const PLANES: [u32; 8] = [0, 1, 2, 3, 4, 257, 1 << 31, u32::MAX];
/// No buffer is made longer than this to fit a setup with wrong regions.
const LONGEST: i128 = 1 << 16;

pub fn compare_damaged(report: &mut Report) {
    let mut random = Random::new(4);
    let mut wrong_planes = [0; 16];
    for planes in KINDS
        .into_iter()
        .flat_map(|planes| repeat_n(planes, PICTURES))
    {
        let mut side = || 1 + random.below(SIDE) as u32;
        let sides = (side(), side());
        let picture = Picture::new(planes, any_passes(&mut random), sides, &mut random);
        if !report.takes() {
            continue;
        }
        let wanted = inside(picture.whole, &mut random);
        let valid = picture.call(wanted, &mut random);
        for _ in 0..CALLS {
            report.input();
            let mut call = valid.clone();
            damage(&mut call, &mut random);
            if !KINDS.contains(&call.setup.planes) {
                wrong_planes[call.expected() as usize] += 1;
            }
            compare_widened(report, call.setup);
            let out = compare(report, &call, 64);
            compare_loupe(report, &call, out.as_deref());
        }
    }
    finish(report, &wrong_planes);
}

/// Prints how often calls with a wrong number of planes are expected to give each number, and requires each that they
/// can give.
fn finish(report: &mut Report, wrong_planes: &[u64]) {
    let counts = [4, 15, 6, 7, 8, 9].map(|number| (number, wrong_planes[number]));
    let shown = counts.map(|(number, count)| format!("{number}: {count}"));
    println!("  with a wrong number of planes {}", shown.join(", "));
    for (number, count) in counts {
        let what = format!("{number} with a wrong number of planes");
        report.require(&what, count, LEAST);
    }
}

/// Makes one to three arguments wrong. Half the time the buffers' lengths then follow the new arguments, so that
/// later checks are reached.
fn damage(call: &mut Call, random: &mut Random) {
    let lengths_fit = random.once_in(2);
    for _ in 0..1 + random.below(3) {
        match random.below(14) {
            0 => region(&mut call.setup.whole, random),
            1 => region(&mut call.setup.wanted, random),
            2 => outside(call, random),
            3 | 4 => moved(call, random),
            5 => settings(&mut call.setup.settings, random),
            6 => frame(&mut call.frame, random),
            7 => table(&mut call.table, random),
            8 | 9 => narrow(call, random),
            10 => resize(&mut call.grids, random),
            11 => call.setup.planes = random.one_of(&PLANES),
            _ if lengths_fit => {}
            _ => {
                let slices = written(call);
                let at = random.below(slices.len());
                resize(slices.into_iter().nth(at).expect("one of four"), random);
            }
        }
    }
    if lengths_fit {
        fit(call, random);
    }
    for slice in written(call) {
        sprinkle(slice, random);
    }
    sprinkle(&mut call.grids, random);
}

/// The buffers that an accepted call writes.
fn written(call: &mut Call) -> [&mut Vec<f32>; 4] {
    [
        &mut call.first,
        &mut call.second,
        &mut call.sigmas,
        &mut call.out,
    ]
}

fn region(r: &mut Region, random: &mut Random) {
    let near = random.below(19) as i32 - 9;
    match random.below(9) {
        0 => r.left = random.one_of(&STARTS),
        1 => r.top = random.one_of(&STARTS),
        2 => r.width = random.one_of(&SIDES),
        3 => r.height = random.one_of(&SIDES),
        4 => (r.width, r.height) = random.one_of(&AREAS),
        5 => r.left = r.left.wrapping_add(near),
        6 => r.top = r.top.wrapping_add(near),
        7 => r.width = r.width.wrapping_add_signed(near),
        _ => r.height = r.height.wrapping_add_signed(near),
    }
}

/// The wanted rectangle is empty, or reaches past an edge of the whole by a sample.
fn outside(call: &mut Call, random: &mut Random) {
    let (whole, wanted) = (call.setup.whole, &mut call.setup.wanted);
    match random.below(6) {
        0 => wanted.width = 0,
        1 => wanted.height = 0,
        2 => wanted.left = whole.left.wrapping_sub(1),
        3 => wanted.top = whole.top.wrapping_sub(1),
        4 => wanted.width = whole.width.wrapping_add(1),
        _ => wanted.height = whole.height.wrapping_add(1),
    }
}

/// Moves the whole and the wanted rectangle together.
fn moved(call: &mut Call, random: &mut Random) {
    let [right, down] = [(); 2].map(|()| random.one_of(&MOVES) * random.below(2) as i32);
    for r in [&mut call.setup.whole, &mut call.setup.wanted] {
        r.left = r.left.wrapping_add(right);
        r.top = r.top.wrapping_add(down);
    }
}

fn settings(settings: &mut Settings, random: &mut Random) {
    if random.once_in(2) {
        settings.gabor.enabled = random.one_of(&[0, 1, 2, 256, u32::MAX]);
    } else {
        settings.epf.iters = random.one_of(&[0, 1, 2, 3, 4, 5, 256, u32::MAX]);
    }
}

fn frame(frame: &mut Frame, random: &mut Random) {
    match random.below(5) {
        0 => frame.width = random.one_of(&SIDES),
        1 => frame.height = random.one_of(&SIDES),
        2 => frame.upsampling = random.one_of(&[0, 1, 2, 3, 4, 8, 16, u32::MAX]),
        3 => frame.lf_level = random.one_of(&[0, 1, 4, 5, u32::MAX]),
        _ => frame.group_size_shift = random.one_of(&[0, 1, 2, 3, 4, u32::MAX]),
    }
}

/// Changes an entry of the table, or its length.
fn table(table: &mut Vec<u32>, random: &mut Random) {
    let group = random.below(table.len().max(TABLE_ENTRY) / TABLE_ENTRY);
    let entry = table.get_mut(TABLE_ENTRY * group..).unwrap_or_default();
    match (random.below(6), entry) {
        (0 | 1, [presence, ..]) => *presence = random.one_of(&[0, 1, 2, 3, u32::MAX]),
        (2, [_, width, ..]) => *width = random.one_of(&[0, 1, 1_024, 1_025, u32::MAX]),
        (3, [_, _, height, ..]) => *height = random.one_of(&[0, 1, 1_024, 1_025, u32::MAX]),
        (4, _) => table.truncate(table.len().saturating_sub(1 + random.below(3))),
        _ => table.extend([1, 2_000, 1].iter().take(1 + random.below(3))),
    }
}

/// Removes a column or a row of the largest grid, with its cells.
fn narrow(call: &mut Call, random: &mut Random) {
    let entries = call.table.chunks_exact_mut(TABLE_ENTRY);
    let present = entries.filter(|entry| entry[0] == 1 && entry[1].min(entry[2]) > 1);
    let largest = present.max_by_key(|entry| u64::from(entry[1]) * u64::from(entry[2]));
    let Some(entry) = largest else {
        return;
    };
    let side = 1 + random.below(2);
    entry[side] -= 1;
    let lost = entry[3 - side] as usize;
    call.grids.truncate(call.grids.len().saturating_sub(lost));
}

fn resize(slice: &mut Vec<f32>, random: &mut Random) {
    let length = slice.len();
    let other = match random.below(5) {
        _ if length == 0 => 1 + random.below(3),
        0 => 0,
        1 => length - 1,
        2 => length + 1,
        3 => length / 3,
        _ => 3 * length,
    };
    slice.resize(other, 1.0);
}

/// Makes the lengths those that the setup requires.
fn fit(call: &mut Call, random: &mut Random) {
    let [sets, sigmas, out] = expected::required_lengths(call.setup);
    let lengths = [sets, sets, sigmas, out];
    for (slice, length) in written(call).into_iter().zip(lengths) {
        if let Some(length) = length.filter(|length| (0..LONGEST).contains(length)) {
            let more = (length as usize).saturating_sub(slice.len());
            slice.truncate(length as usize);
            slice.extend(noise(more, random));
        }
    }
}

/// Stores NaNs with any bits in the first place, in the last and in some between.
fn sprinkle(slice: &mut [f32], random: &mut Random) {
    let Some(last) = slice.len().checked_sub(1) else {
        return;
    };
    let between = [(); 6].map(|()| random.below(last + 1));
    for at in between.into_iter().chain([0, last]) {
        slice[at] = f32::from_bits(random.pattern() | 0x7F80_0001);
    }
}

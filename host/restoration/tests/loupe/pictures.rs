//! Random pictures, whole runs over them, and calls for rectangles of them.

use core::ops::Range;

use restoration::{
    BLOCK, CHANNELS, Frame, GREY_PLANES, GROUP_DIM, GaborSettings, Loupe, LoupeSetup, MAX_OFFSET,
    MAX_SIDE, PLANES, Region, Settings, Setup, Smoothing, TABLE_ENTRY, group_sizes,
};

use crate::{
    calls::{Call, part},
    expected,
    random::Random,
};

/// Special samples: zeros, subnormals, the largest numbers, infinities and NaNs.
const SPECIAL: [u32; 12] = [
    0, 0x8000_0000, 1, 0x807F_FFFF, 0x0080_0000, 0x7F7F_FFFF, 0xFF7F_FFFF, 0x7F80_0000,
    0xFF80_0000, 0x7FC0_0000, 0x7F80_0001, 0xFFFF_FFFF,
];
/// Sigmas at the copying limit (0x3E99_999A) and next to it, negative, zero, infinite and NaN.
const SIGMAS: [u32; 10] = [
    0x3E99_9999, 0x3E99_999A, 0x3E99_999B, 0x3DCC_CCCD, 0xBF80_0000, 0, 0x8000_0000, 0x7F80_0000,
    0xFF80_0000, 0x7FC0_0000,
];
/// Upsampling and LF level.
const SCALES: [(u32, u32); 5] = [(1, 0), (1, 0), (2, 0), (8, 0), (1, 1)];

/// A whole picture. Its samples are those of its filter region, plane by plane.
#[derive(Clone)]
pub struct Picture {
    pub whole: Region,
    /// How many planes it has.
    pub planes: u32,
    pub settings: Settings,
    pub frame: Frame,
    pub table: Vec<u32>,
    pub grids: Vec<f32>,
    pub samples: Vec<f32>,
}

/// How many planes pictures have. Each section has the same number of pictures of both kinds.
pub const KINDS: [u32; 2] = [PLANES, GREY_PLANES];

/// The passes of settings, by their number: Gabor if it is odd, and 0 to 3 iterations.
pub const PASSES: u32 = 8;

/// Drawn and not counted up, so that one picture in fifty has any passes too.
pub fn any_passes(random: &mut Random) -> u32 {
    random.below(PASSES as usize) as u32
}

impl Picture {
    /// A picture with these sides, near a place where groups meet or, with the EPF off, anywhere.
    pub fn new(planes: u32, passes: u32, sides: (u32, u32), random: &mut Random) -> Self {
        let mut groups = Groups::near_a_meeting(sides, random);
        let settings = settings(passes, random);
        if settings.epf.iters == 0 {
            groups.whole.left = any_start(random);
            groups.whole.top = any_start(random);
        }
        Self::of(groups, planes, settings, random)
    }

    /// A picture of so many groups per row and column, more than one in all, with the EPF on. Some of the groups
    /// that it touches have a grid and some have none.
    pub fn of_mixed_groups(
        planes: u32,
        passes: u32,
        sides: (u32, u32),
        groups: (u32, u32),
        random: &mut Random,
    ) -> Self {
        loop {
            let groups = Groups::across_meetings(sides, groups, random);
            let picture = Self::of(groups, planes, settings(passes, random), random);
            let [across, down] = picture.blocks();
            let blocks = (0..down).flat_map(|y| (0..across).map(move |x| (x, y)));
            let present = blocks.filter(|&block| picture.has_grid(block)).count();
            if (1..across as usize * down as usize).contains(&present) {
                return picture;
            }
        }
    }

    fn of(groups: Groups, planes: u32, mut settings: Settings, random: &mut Random) -> Self {
        let samples = samples(groups.whole.samples_in(planes), random);
        fill_unread(&mut settings, planes, || f32::from_bits(random.pattern()));
        Self {
            planes,
            settings,
            samples,
            whole: groups.whole,
            frame: groups.frame,
            table: groups.table,
            grids: groups.grids,
        }
    }

    /// A part of the filter region as a picture of its own.
    pub fn part(&self, r: Region) -> Self {
        Self {
            whole: r,
            samples: part(self.whole, &self.samples, r),
            ..self.clone()
        }
    }

    /// Blocks of the filter region across and down.
    pub fn blocks(&self) -> [u32; 2] {
        [self.whole.width, self.whole.height].map(|side| side.div_ceil(BLOCK))
    }

    /// Whether the group of a block has a grid. The block is counted from the filter region's corner.
    pub fn has_grid(&self, (x, y): (u32, u32)) -> bool {
        let sizes = group_sizes(self.frame).value().expect("a frame in range");
        let group = |start: i32, block: u32| (start as u32 / BLOCK + block) / sizes.group_dim;
        let row = group(self.whole.top, y) * sizes.groups_per_row;
        let group = row + group(self.whole.left, x);
        self.table[TABLE_ENTRY * group as usize] == 1
    }

    pub fn has_passes(&self) -> bool {
        self.settings.gabor.enabled + self.settings.epf.iters > 0
    }

    /// A run over the whole filter region. What is not read is 0 (Specification 17.6).
    pub fn smoothed(&self) -> Vec<f32> {
        let mut settings = self.settings;
        fill_unread(&mut settings, self.planes, || 0.0);
        let setup = Setup {
            planes: self.planes,
            settings,
            ..Setup::whole(self.whole)
        };
        let samples = self.samples.clone();
        let smoothing = Smoothing::start(setup, self.frame, &self.table, &self.grids, samples);
        smoothing.and_then(Smoothing::finish).expect("a whole run")
    }

    pub fn loupe(&self) -> Loupe<'_> {
        Loupe {
            whole: self.whole,
            planes: self.planes,
            settings: self.settings,
            frame: self.frame,
            table: &self.table,
            grids: &self.grids,
        }
    }

    fn setup(&self, wanted: Region) -> LoupeSetup {
        LoupeSetup {
            whole: self.whole,
            wanted,
            planes: self.planes,
            settings: self.settings,
        }
    }

    /// The arguments for a wanted rectangle, with any samples in the buffers that the call writes. Without a
    /// widened rectangle there are no planes and no sigmas.
    pub fn call(&self, wanted: Region, random: &mut Random) -> Call {
        let setup = self.setup(wanted);
        let widened = expected::widened_answer(setup).region;
        let first = part(self.whole, &self.samples, widened);
        Call {
            setup,
            frame: self.frame,
            table: self.table.clone(),
            grids: self.grids.clone(),
            second: noise(first.len(), random),
            first,
            sigmas: noise(self.block_count(widened), random),
            out: noise(wanted.samples_in(self.planes), random),
        }
    }

    fn block_count(&self, r: Region) -> usize {
        if self.settings.epf.iters == 0 {
            return 0;
        }
        (r.width.div_ceil(BLOCK) * r.height.div_ceil(BLOCK)) as usize
    }
}

/// Near zero, at a limit, or anywhere.
fn any_start(random: &mut Random) -> i32 {
    let near = random.below(81) as i32 - 40;
    let any = random.below(2 * MAX_OFFSET as usize + 1) as i32 - MAX_OFFSET;
    random.one_of(&[near, near, near, any, -MAX_OFFSET, MAX_OFFSET])
}

fn settings(passes: u32, random: &mut Random) -> Settings {
    let mut settings = Settings::DEFAULT;
    if random.once_in(2) {
        let weights = [(); CHANNELS].map(|()| [plain(random) / 2.0, plain(random) / 4.0]);
        settings.gabor = GaborSettings::with_weights(weights);
    }
    let epf = &mut settings.epf;
    if random.once_in(2) {
        epf.channel_scale = [(); CHANNELS].map(|()| 20.0 * plain(random).abs());
        epf.sigma.pass0_sigma_scale = plain(random).abs();
        epf.sigma.pass2_sigma_scale = 8.0 * plain(random).abs();
        epf.sigma.border_sad_mul = plain(random).abs();
    }
    epf.sigma_for_modular = sigma(random);
    epf.iters = passes / 2 % 4;
    settings.gabor.enabled = passes % 2;
    settings
}

/// Fills the weights and the scales of channels that the picture has no plane of.
fn fill_unread(settings: &mut Settings, planes: u32, mut float: impl FnMut() -> f32) {
    let weights = &mut settings.gabor.weights[planes as usize..];
    let scales = &mut settings.epf.channel_scale[planes as usize..];
    for unread in weights.as_flattened_mut().iter_mut().chain(scales) {
        *unread = float();
    }
}

/// Between -1 and 1.
fn plain(random: &mut Random) -> f32 {
    (random.below(1 << 25) as f32 - (1 << 24) as f32) / (1 << 24) as f32
}

/// Mostly over the copying limit.
fn sigma(random: &mut Random) -> f32 {
    match random.below(8) {
        0 => f32::from_bits(random.one_of(&SIGMAS)),
        1 => 0.3 * plain(random).abs(),
        _ => 0.3 + 4.0 * plain(random).abs(),
    }
}

/// Samples that differ little, so that each pass changes them; one set in four has special ones.
fn samples(count: usize, random: &mut Random) -> Vec<f32> {
    let special = random.once_in(4);
    let spread = random.one_of(&[0.01, 0.05, 0.2]);
    let sample = |_| match random.below(16) {
        0 if special => f32::from_bits(random.one_of(&SPECIAL)),
        1 => plain(random),
        _ => 0.5 + spread * plain(random),
    };
    (0..count).map(sample).collect()
}

/// Samples with any bits, half of them NaNs of every kind.
pub fn noise(count: usize, random: &mut Random) -> Vec<f32> {
    random
        .patterns(count)
        .into_iter()
        .map(f32::from_bits)
        .collect()
}

/// A filter region whose left and top are multiples of 8, and a frame whose groups hold it.
struct Groups {
    whole: Region,
    frame: Frame,
    table: Vec<u32>,
    grids: Vec<f32>,
}

/// Blocks of a filter region along an axis, and groups of the frame.
struct Axis {
    blocks: Range<u32>,
    groups: u32,
}

impl Axis {
    /// One or more groups, and blocks near a place where groups meet.
    fn new(side: u32, dim: u32, random: &mut Random) -> Self {
        let count = side.div_ceil(BLOCK);
        let least = count.div_ceil(dim);
        let most = MAX_SIDE / (BLOCK * dim);
        let groups = (least + random.below(2) as u32).min(most);
        let meeting = dim * random.below(groups as usize + 1) as u32;
        let before = random.below(count as usize + 1) as u32;
        let first = meeting.saturating_sub(before).min(groups * dim - count);
        Self {
            blocks: first..first + count,
            groups,
        }
    }

    /// So many groups, and blocks on both sides of a place where two of them meet.
    fn across_a_meeting(side: u32, groups: u32, dim: u32, random: &mut Random) -> Self {
        let count = side.div_ceil(BLOCK);
        let first = if groups == 1 {
            random.below((dim - count) as usize) as u32
        } else {
            let meeting = dim * (1 + random.below(groups as usize - 1) as u32);
            meeting - 1 - random.below(count as usize - 1) as u32
        };
        Self {
            blocks: first..first + count,
            groups,
        }
    }

    /// Columns or rows that a group's grid needs.
    fn needed(&self, group: u32, dim: u32) -> u32 {
        let end = self.blocks.end.min((group + 1) * dim);
        let held = self.blocks.start.max(group * dim) < end;
        if held { end - group * dim } else { 0 }
    }

    /// A side of a frame with this many groups.
    fn frame_side(&self, dim: u32, scale: u32, random: &mut Random) -> u32 {
        let group = BLOCK * dim;
        let samples = (self.groups - 1) * group + 1 + random.below(group as usize) as u32;
        ((samples - 1) * scale + 1 + random.below(scale as usize) as u32).min(MAX_SIDE)
    }
}

impl Groups {
    fn near_a_meeting((width, height): (u32, u32), random: &mut Random) -> Self {
        let shift = random.one_of(&[0, 0, 0, 0, 0, 0, 0, 1]);
        let dim = GROUP_DIM << shift;
        let axes = [width, height].map(|side| Axis::new(side, dim, random));
        let missing = random.one_of(&[1, 3, 8]);
        Self::new(axes, (width, height), shift, missing, random)
    }

    /// Of so many groups per row and column, with the sides' blocks on both sides of a meeting where there is one.
    fn across_meetings(sides: (u32, u32), groups: (u32, u32), random: &mut Random) -> Self {
        let shift = random.one_of(&[0, 0, 0, 1]);
        let along = [(sides.0, groups.0), (sides.1, groups.1)];
        let axes = along
            .map(|(side, groups)| Axis::across_a_meeting(side, groups, GROUP_DIM << shift, random));
        Self::new(axes, sides, shift, 2, random)
    }

    /// One group in `missing` has no grid.
    fn new(
        axes: [Axis; 2],
        (width, height): (u32, u32),
        shift: u32,
        missing: u64,
        random: &mut Random,
    ) -> Self {
        let dim = GROUP_DIM << shift;
        let frame = frame(&axes, shift, random);
        let mut groups = Self {
            whole: Region {
                left: (BLOCK * axes[0].blocks.start) as i32,
                top: (BLOCK * axes[1].blocks.start) as i32,
                width,
                height,
            },
            frame,
            table: Vec::new(),
            grids: Vec::new(),
        };
        for row in 0..axes[1].groups {
            for column in 0..axes[0].groups {
                let need = [axes[0].needed(column, dim), axes[1].needed(row, dim)];
                if random.once_in(missing) {
                    groups
                        .table
                        .extend([0, random.next() as u32, random.next() as u32]);
                } else {
                    groups.add(need, dim, random);
                }
            }
        }
        groups
    }

    /// A grid that has at least the needed columns and rows.
    fn add(&mut self, need: [u32; 2], dim: u32, random: &mut Random) {
        let mut side = |need: u32| (need + random.below(3) as u32).clamp(1, dim);
        let [width, height] = need.map(&mut side);
        self.table.extend([1, width, height]);
        let cells = (0..width * height).map(|_| sigma(random));
        self.grids.extend(cells);
    }
}

fn frame(axes: &[Axis; 2], shift: u32, random: &mut Random) -> Frame {
    let dim = GROUP_DIM << shift;
    let (upsampling, lf_level) = random.one_of(&SCALES);
    let scale = upsampling * 8_u32.pow(lf_level);
    // Larger frames are out of range.
    let fits = axes
        .iter()
        .all(|axis| axis.groups * BLOCK * dim * scale <= MAX_SIDE);
    let (upsampling, lf_level, scale) = if fits {
        (upsampling, lf_level, scale)
    } else {
        (1, 0, 1)
    };
    let [width, height] = [0, 1].map(|axis| axes[axis].frame_side(dim, scale, random));
    Frame {
        width,
        height,
        upsampling,
        lf_level,
        group_size_shift: shift,
    }
}

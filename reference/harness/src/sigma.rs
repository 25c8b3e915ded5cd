//! Block sigmas: frames of 1 to 4 groups per row and column, filter regions where groups meet, grids
//! that are missing or too small, and refusals. Where groups are mixed the sigmas are compared with the
//! original without its carry, and with the unchanged one after its missing grids are filled in.

use core::{fmt, hint::black_box};

use restoration::{
    BLOCK, Blocks, CHANNELS, GROUP_DIM, MAX_AREA, MAX_GRID_SIDE, MAX_GROUP_SIZE_SHIFT,
    MAX_LF_LEVEL, MAX_OFFSET, MAX_SIDE, TABLE_ENTRY,
};

use crate::{
    bits, convert,
    expected::{self, sigma as rule},
    originals::{self, is_mixed},
    picture::{agree, any_flag, any_len, compare_answer, plain, special},
    random::Random,
    report::{Amount, Report, Row},
};

/// Filter regions where groups meet, for each number of groups, before `--scale`; by group size shift.
const MEETINGS: [u64; 4] = [40, 10, 3, 2];
/// The most groups per row and column, by group size shift.
pub const GROUPS: [u32; 4] = [4, 4, 4, 2];

/// A group size shift. Larger groups have larger grids, so they are drawn less often.
pub const fn seldom_large(n: u64) -> u32 {
    match n {
        0 => 3,
        1 | 2 => 2,
        3..=8 => 1,
        _ => 0,
    }
}

/// Mixed frames for each number of groups, before `--scale`; by group size shift.
const MIXED: [u64; 4] = [60, 15, 4, 4];
/// Frames with grids that are too small, before `--scale`.
const NARROW: u64 = 2_000;
/// Draws of damaged inputs, before `--scale`.
const DRAWS: u64 = 60_000;
/// Cells of a grid repeat after this many: a prime, so that rows and grids do not repeat with it.
const PERIOD: usize = 8_191;

const NAME: &str = "block sigmas";
/// The numbers that block sigmas can answer.
const NUMBERS: [u32; 5] = [0, 4, 7, 8, 9];

/// Sides of frames and filter regions, and left and top in blocks, at their limits.
pub const SIDES: [u32; 6] = [0, 1, BLOCK, MAX_SIDE, MAX_SIDE + 1, u32::MAX];
const CORNERS: [u32; 5] = [
    GROUP_DIM - 1,
    GROUP_DIM,
    MAX_OFFSET as u32 / BLOCK,
    MAX_OFFSET as u32 / BLOCK + 1,
    u32::MAX,
];
/// Presences out of range, and sides of grids at their limits.
const PRESENCES: [u32; 3] = [2, 3, u32::MAX];
const GRID_SIDES: [u32; 5] = [0, 1, MAX_GRID_SIDE, MAX_GRID_SIDE + 1, u32::MAX];
/// Samples along a side of a group whose group size shift is 0.
const GROUP: u32 = BLOCK * GROUP_DIM;

/// The inputs of block sigmas, without the buffer for the sigmas. The filter region's left and top are in
/// blocks.
#[derive(Clone)]
pub struct Case {
    pub frame: oracle::Frame,
    pub blocks: Blocks,
    pub table: Vec<u32>,
    pub grids: Vec<f32>,
    pub modular: f32,
}

impl fmt::Debug for Case {
    fn fmt(&self, f: &mut fmt::Formatter) -> fmt::Result {
        f.debug_struct("Case")
            .field("frame", &self.frame)
            .field("blocks", &self.blocks)
            .field("table", &self.table)
            .field("modular", &self.modular)
            .finish_non_exhaustive()
    }
}

impl Case {
    pub fn ours(&self, on: u32, sigmas: &mut [f32]) -> u32 {
        let frame = convert::frame(self.frame);
        restoration::block_sigmas(
            on, frame, self.blocks, &self.table, &self.grids, self.modular, sigmas,
        )
    }

    fn input(&self, on: u32, sigmas: usize) -> rule::Input<'_> {
        rule::Input {
            on,
            frame: convert::wide_frame(self.frame),
            filter: expected::Region {
                left: i128::from(BLOCK) * i128::from(self.blocks.left),
                top: i128::from(BLOCK) * i128::from(self.blocks.top),
                width: self.blocks.width.into(),
                height: self.blocks.height.into(),
            },
            table: &self.table,
            grids: self.grids.len(),
            sigmas,
        }
    }

    /// Table and grids have the same bits as before.
    fn is_left_as(&self, before: &Self) -> bool {
        *black_box(&self.table) == before.table && bits::same(&self.grids, &before.grids)
    }

    /// The filter region of an accepted case.
    pub fn filter(&self) -> oracle::Region {
        oracle::Region {
            left: (BLOCK * self.blocks.left) as i32,
            top: (BLOCK * self.blocks.top) as i32,
            width: self.blocks.width,
            height: self.blocks.height,
        }
    }

    /// The grids of an accepted case, for the original.
    pub fn original_grids(&self) -> Vec<Option<oracle::SigmaGrid>> {
        original_grids(&self.table, &self.grids)
    }

    /// The same with each missing grid filled in: its cells are `modular`, as many as the blocks need.
    pub fn filled_grids(&self) -> Vec<Option<oracle::SigmaGrid>> {
        let mut grids = self.original_grids();
        let across = oracle::group_sizes(self.frame).groups_per_row;
        for (group, grid) in (0..).zip(&mut grids) {
            let [width, height] = self.needed_sides((group % across, group / across));
            grid.get_or_insert_with(|| oracle::SigmaGrid {
                width,
                height,
                cells: vec![self.modular; width * height],
            });
        }
        grids
    }

    /// How many columns and rows of a group's grid the blocks need.
    fn needed_sides(&self, (column, row): (u32, u32)) -> [usize; 2] {
        let dim = GROUP_DIM << self.frame.group_size_shift;
        let Blocks {
            left,
            top,
            width,
            height,
        } = self.blocks;
        [(column, left, width), (row, top, height)]
            .map(|(group, first, side)| needed(group, dim, first, side) as usize)
    }

    /// Whether some of the groups with blocks have a grid and some have none; of an accepted case.
    pub fn is_mixed(&self) -> bool {
        is_mixed(self.filter(), self.frame, &self.original_grids())
    }

    /// The sigmas of the blocks of group row 1, in a case of [`one_above_the_other`].
    pub fn without_grid<'a>(&self, sigmas: &'a [f32]) -> &'a [f32] {
        &sigmas[self.grids.len().saturating_sub(self.blocks.top as usize)..]
    }

    /// Blocks of the filter region; 1 if the region is too large.
    pub fn count(&self) -> usize {
        let Blocks { width, height, .. } = self.blocks;
        if width.max(height) > MAX_SIDE || width * height > MAX_AREA {
            return 1;
        }
        (width.div_ceil(BLOCK) * height.div_ceil(BLOCK)) as usize
    }
}

/// The grids of a table and its cells, for the original.
pub fn original_grids(table: &[u32], grids: &[f32]) -> Vec<Option<oracle::SigmaGrid>> {
    let mut rest = grids;
    let mut grid = |entry: &[u32]| {
        let (width, height) = (entry[1] as usize, entry[2] as usize);
        let cells = rest.split_off(..width * height)?.to_vec();
        Some(oracle::SigmaGrid {
            width,
            height,
            cells,
        })
    };
    table
        .chunks_exact(TABLE_ENTRY)
        .map(|entry| if entry[0] == 1 { grid(entry) } else { None })
        .collect()
}

pub fn compare(amount: Amount, report: &mut Report) {
    let mut random = Random::for_name(NAME);
    let mut row = Row::new(NAME, "instances");
    for shift in 0..=MAX_GROUP_SIZE_SHIFT {
        for case in one_above_the_other(shift, &mut random) {
            without_grid(&case, &mut random, &mut row);
        }
    }
    report.add(row);
    let mut row = Row::new(NAME, "groups meet");
    for_each_frame(MEETINGS, amount, |shift, groups| {
        let case = meeting(shift, groups, false, &mut random);
        check(&case, 1, case.count(), &mut random, &mut row);
    });
    report.add(row);
    mixed_frames(amount, &mut random, report);
    let mut row = Row::new(NAME, "narrow grids");
    while row.draws(NARROW, amount) {
        let shift = seldom_large(random.within(0, 199) as u64);
        let mut groups = || random.within(1, GROUPS[shift as usize].into()) as u32;
        let groups = (groups(), groups());
        let case = meeting(shift, groups, true, &mut random);
        check(&case, 1, case.count(), &mut random, &mut row);
    }
    report.add(row);
    whole_frames(&mut random, report);
    let mut row = Row::new(NAME, "refusals");
    while row.draws(DRAWS, amount) {
        damaged(&mut random, &mut row);
    }
    row.require(&NUMBERS, amount);
    report.add(row);
}

/// So many frames of each number of groups per row and column, by group size shift.
fn for_each_frame(cases: [u64; 4], amount: Amount, mut each: impl FnMut(u32, (u32, u32))) {
    for (shift, (most, cases)) in (0..).zip(GROUPS.into_iter().zip(cases)) {
        for groups in 0..most * most {
            for _ in 0..amount.few(cases) {
                each(shift, (1 + groups % most, 1 + groups / most));
            }
        }
    }
}

/// Frames of which the filter region touches a group with a grid and one without: compared with the original
/// without its carry, and with the unchanged one after the missing grids are filled in.
fn mixed_frames(amount: Amount, random: &mut Random, report: &mut Report) {
    let mut row = Row::new(NAME, "mixed groups");
    let mut filled = Row::new(NAME, "grids filled in");
    let (mut frames, mut carried) = (0, 0);
    for_each_frame(MIXED, amount, |shift, groups| {
        if let Some(case) = mixed(shift, groups, random) {
            check(&case, 1, case.count(), random, &mut row);
            check_filled(&case, &mut filled);
            frames += 1;
            carried += u64::from(carry_shows(&case));
        }
    });
    println!(
        "{NAME}: of {frames} frames of mixed groups the unchanged original carries a sigma in {carried}"
    );
    row.at_least("frames in which the carry shows", carried, frames / 10);
    for row in [row, filled] {
        report.add(row);
    }
}

/// A case of [`meeting`] whose groups are mixed; none with a single group.
pub fn mixed(shift: u32, groups: (u32, u32), random: &mut Random) -> Option<Case> {
    if groups == (1, 1) {
        return None;
    }
    loop {
        let case = meeting(shift, groups, false, random);
        if case.is_mixed() {
            return Some(case);
        }
    }
}

/// The unchanged original has a sigma of another block in a row that it shows.
fn carry_shows(case: &Case) -> bool {
    let (filter, frame, settings) = (case.filter(), case.frame, settings(case.modular));
    let [carried, filled] = [case.original_grids(), case.filled_grids()]
        .map(|grids| oracle::sigma_rows(filter, frame, &grids, settings));
    let sigmas = |rows: oracle::SigmaRows| rows.into_iter().flat_map(|(_, sigmas)| sigmas);
    sigmas(carried)
        .zip(sigmas(filled))
        .any(|(a, b)| !agree(a, b))
}

/// The library's sigmas must be the unchanged original's with `modular` in each cell of a missing grid.
fn check_filled(case: &Case, row: &mut Row) {
    let mut ours = vec![0.0; case.count()];
    let number = case.ours(1, &mut ours);
    row.count(0);
    if number != 0 {
        row.differs(case, &number, &0);
    }
    let (grids, settings) = (case.filled_grids(), settings(case.modular));
    let shown = oracle::sigma_rows(case.filter(), case.frame, &grids, settings);
    check_rows(case, &ours, shown, row);
}

fn whole_frames(random: &mut Random, report: &mut Report) {
    let mut row = Row::new(NAME, "whole frames");
    for (width, height) in [
        (MAX_SIDE, 64),
        (64, MAX_SIDE),
        (2_040, 1_500),
        (1_500, 2_044),
    ] {
        for shift in 0..=MAX_GROUP_SIZE_SHIFT {
            let case = whole(shift, width, height, random);
            check(&case, 1, case.count(), random, &mut row);
        }
    }
    report.add(row);
}

/// The number and the sigmas must be the rule's, and the sigmas also the original's, in all rows in which
/// the original shows them.
fn check(case: &Case, on: u32, len: usize, random: &mut Random, row: &mut Row) {
    let mut before: Vec<f32> = (0..len).map(|_| special(random)).collect();
    bits::sprinkle(&mut before, random);
    let mut ours = before.clone();
    let input = case.input(on, len);
    let number = rule::number(input);
    let read = case.clone();
    let given = case.ours(on, &mut ours);
    if !case.is_left_as(&read) {
        row.differs(case, &"a changed table or grid", &"left");
    }
    if number != 0 || on == 0 {
        let expected = (number, &before[..]);
        compare_answer(case, (0, 0), (given, &ours), expected, &|_| false, row);
        return;
    }
    let expected = rule::sigmas(input, &case.grids, case.modular);
    compare_answer(case, (0, 0), (given, &ours), (0, &expected), &|_| true, row);
    row.of_groups(case.is_mixed());
    let shown = originals::sigma_rows(
        case.filter(),
        case.frame,
        &case.original_grids(),
        settings(case.modular),
    );
    check_rows(case, &ours, shown, row);
}

/// The sigmas of an accepted case must be those of the rows that an original shows.
fn check_rows(case: &Case, ours: &[f32], shown: oracle::SigmaRows, row: &mut Row) {
    assert!(case.blocks.height < 7 || !shown.is_empty());
    let across = case.blocks.width.div_ceil(BLOCK) as usize;
    for (y, original) in shown {
        let at = (y / BLOCK as usize - case.blocks.top as usize) * across;
        let same = ours[at..].iter().zip(&original).all(|(a, b)| agree(*a, *b));
        if !same || original.len() != across {
            row.differs(&(case, y), &&ours[at..at + across], &original);
        }
    }
}

/// Settings for one iteration; block sigmas depend on `sigma_for_modular` alone.
fn settings(sigma_for_modular: f32) -> oracle::Edge {
    oracle::Edge {
        iters: 1,
        sharp_lut: [0.0; 8],
        channel_scale: [1.0; CHANNELS],
        sigma: oracle::Sigma {
            quant_mul: 1.0,
            pass0_sigma_scale: 1.0,
            pass2_sigma_scale: 1.0,
            border_sad_mul: 1.0,
        },
        sigma_for_modular,
    }
}

/// Group row 0 has grids, row 1 has none; a filter region of one block column where they meet.
pub fn one_above_the_other(shift: u32, random: &mut Random) -> [Case; 4] {
    let dim = GROUP_DIM << shift;
    [(dim - 1, 16), (dim - 2, 39), (dim, 16), (dim + 1, 8)].map(|(top, height)| Case {
        frame: oracle::Frame {
            width: BLOCK,
            height: BLOCK * (dim + 1),
            upsampling: 1,
            lf_level: 0,
            group_size_shift: shift,
        },
        blocks: Blocks {
            left: 0,
            top,
            width: BLOCK,
            height,
        },
        table: vec![1, 1, dim, 0, 0, 0],
        grids: (0..dim).map(|_| sigma(random)).collect(),
        modular: 1.0,
    })
}

/// Blocks of group row 1 have `modular`, whether or not the filter region has blocks of group row 0.
fn without_grid(case: &Case, random: &mut Random, row: &mut Row) {
    check(case, 1, case.count(), random, row);
    let mut sigmas = vec![0.0; case.count()];
    case.ours(1, &mut sigmas);
    let missing = case.without_grid(&sigmas);
    if !missing.iter().all(|&sigma| agree(sigma, case.modular)) {
        row.differs(case, &missing, &case.modular);
    }
}

/// A frame with these groups per row and column, and a filter region near a corner of one of them. A
/// narrow grid lacks a column or a row of its blocks.
pub fn meeting(shift: u32, groups: (u32, u32), narrow: bool, random: &mut Random) -> Case {
    let frame = frame(shift, groups, random);
    let dim = GROUP_DIM << shift;
    let (left, columns) = around(dim, groups.0, random);
    let (top, rows) = around(dim, groups.1, random);
    let part = |random: &mut Random| random.within(0, (BLOCK - 1).into()) as u32;
    let blocks = Blocks {
        left,
        top,
        width: BLOCK * columns - part(random),
        height: BLOCK * rows - part(random),
    };
    filled(frame, blocks, groups, narrow, random)
}

/// Blocks near a place where groups of `dim` blocks meet, or near an end of the frame: the first block
/// and the number of blocks.
fn around(dim: u32, groups: u32, random: &mut Random) -> (u32, u32) {
    let place = dim * random.within(0, groups.into()) as u32;
    let first = place.saturating_sub(random.within(0, 6) as u32);
    let first = first.min(groups * dim - 1);
    let most = (groups * dim - first).min(12);
    (first, random.within(1, most.into()) as u32)
}

/// A frame with these groups per row and column, with any upsampling and LF level that its size allows.
pub fn frame(shift: u32, groups: (u32, u32), random: &mut Random) -> oracle::Frame {
    let group = GROUP << shift;
    let least = |groups: u32| (groups - 1) * group + 1;
    let largest = least(groups.0.max(groups.1));
    let (mut upsampling, mut lf_level) = (
        1 << random.within(0, 3),
        random.within(0, MAX_LF_LEVEL.into()) as u32,
    );
    if (upsampling << (3 * lf_level)) * largest > MAX_SIDE {
        (upsampling, lf_level) = (1, 0);
    }
    let shrink: u32 = upsampling << (3 * lf_level);
    let mut side = |groups: u32| {
        let most = (groups * group).min(MAX_SIDE / shrink);
        let samples = random.within(least(groups).into(), most.into()) as u32;
        samples * shrink - random.within(0, i128::from(shrink) - 1) as u32
    };
    oracle::Frame {
        width: side(groups.0),
        height: side(groups.1),
        upsampling,
        lf_level,
        group_size_shift: shift,
    }
}

/// Grids for the blocks. Each is missing, just large enough, a little larger, or narrow.
pub fn filled(
    frame: oracle::Frame,
    blocks: Blocks,
    (across, down): (u32, u32),
    narrow: bool,
    random: &mut Random,
) -> Case {
    let dim = GROUP_DIM << frame.group_size_shift;
    let mut table = Vec::new();
    let mut cells = 0;
    for group in 0..across * down {
        let needs = [
            needed(group % across, dim, blocks.left, blocks.width),
            needed(group / across, dim, blocks.top, blocks.height),
        ];
        if random.once_in(3) {
            table.extend([0, random.next() as u32, random.next() as u32]);
            continue;
        }
        let mut sides = needs.map(|need| dim.min(need + random.within(0, 3) as u32).max(1));
        if narrow && random.once_in(3) {
            let at = random.within(0, 1) as usize;
            sides[at] = needs[at].saturating_sub(1).max(1);
        }
        table.extend([1, sides[0], sides[1]]);
        cells += sides[0] as usize * sides[1] as usize;
    }
    Case {
        frame,
        blocks,
        table,
        grids: sigmas(cells, random),
        modular: sigma(random),
    }
}

/// How many cells of a group's grid the blocks need on one axis.
pub fn needed(group: u32, dim: u32, first: u32, side: u32) -> u32 {
    let past = first + side.div_ceil(BLOCK);
    let start = group * dim;
    if past <= start || first >= start + dim {
        return 0;
    }
    (past - start).min(dim)
}

/// A large filter region at the corner of the frame.
fn whole(shift: u32, width: u32, height: u32, random: &mut Random) -> Case {
    let frame = oracle::Frame {
        width,
        height,
        upsampling: 1,
        lf_level: 0,
        group_size_shift: shift,
    };
    let blocks = Blocks {
        left: 0,
        top: 0,
        width,
        height,
    };
    let groups = |side: u32| side.div_ceil(GROUP << shift);
    filled(
        frame,
        blocks,
        (groups(width), groups(height)),
        false,
        random,
    )
}

/// A valid case, damaged in one to three places.
fn damaged(random: &mut Random, row: &mut Row) {
    let groups = (random.within(1, 2) as u32, random.within(1, 2) as u32);
    let narrow = random.once_in(4);
    let mut case = meeting(0, groups, narrow, random);
    let mut on = u32::from(!random.once_in(8));
    let mut len = on as usize * case.count();
    for _ in 0..random.within(1, 3) {
        match random.within(0, 4) {
            0 => damage_frame(&mut case.frame, random),
            1 => {
                damage_blocks(&mut case.blocks, random);
                len = case.count();
            }
            2 => damage_table(&mut case.table, random),
            3 => {
                let cells = any_len(case.grids.len(), random);
                case.grids.resize(cells, 1.0);
            }
            _ => {
                len = any_len(len, random);
                if random.once_in(4) {
                    on = any_flag(random);
                }
            }
        }
    }
    bits::sprinkle(&mut case.grids, random);
    check(&case, on, len, random, row);
}

pub fn damage_frame(frame: &mut oracle::Frame, random: &mut Random) {
    match random.within(0, 4) {
        0 => frame.width = random.one_of(&SIDES),
        1 => frame.height = random.one_of(&SIDES),
        2 => frame.upsampling = random.one_of(&[0, 3, 5, 16, u32::MAX]),
        3 => frame.lf_level = random.one_of(&[5, 6, 64, u32::MAX]),
        _ => frame.group_size_shift = random.one_of(&[4, 5, 32, u32::MAX]),
    }
}

fn damage_blocks(blocks: &mut Blocks, random: &mut Random) {
    match random.within(0, 4) {
        0 => blocks.width = random.one_of(&SIDES),
        1 => blocks.height = random.one_of(&SIDES),
        2 => blocks.left = random.one_of(&CORNERS),
        3 => blocks.top = random.one_of(&CORNERS),
        _ => (blocks.width, blocks.height) = (random.one_of(&SIDES), random.one_of(&SIDES)),
    }
}

pub fn damage_table(table: &mut Vec<u32>, random: &mut Random) {
    let entries = (table.len() / TABLE_ENTRY) as i128;
    let entry = TABLE_ENTRY * random.within(0, entries - 1).max(0) as usize;
    if table.len() < entry + TABLE_ENTRY {
        return;
    }
    match random.within(0, 4) {
        0 => table[entry] = random.one_of(&PRESENCES),
        1 => table[entry + 1] = random.one_of(&GRID_SIDES),
        2 => table[entry + 2] = random.one_of(&GRID_SIDES),
        3 => table.truncate(any_len(table.len() - 1, random)),
        _ => table.extend([0; TABLE_ENTRY]),
    }
}

/// Sigmas for this many cells.
pub fn sigmas(cells: usize, random: &mut Random) -> Vec<f32> {
    let first: Vec<f32> = (0..cells.min(PERIOD)).map(|_| sigma(random)).collect();
    let mut all = Vec::with_capacity(cells);
    while all.len() < cells {
        all.extend_from_slice(&first[..first.len().min(cells - all.len())]);
    }
    all
}

/// A sigma: plain, at the copying limit or next to it, negative, zero, infinite or NaN.
pub fn sigma(random: &mut Random) -> f32 {
    match random.within(0, 9) {
        0..=5 => 0.3 + 4.0 * plain(random).abs(),
        6 => f32::from_bits(random.one_of(&[0x3E99_9999, 0x3E99_999A, 0x3E99_999B])),
        7 => -plain(random).abs(),
        8 => random.one_of(&[0.0, -0.0, f32::NAN, f32::INFINITY, f32::NEG_INFINITY]),
        _ => special(random),
    }
}

//! The rules of the loupe's calls, written from the Specification (17). They share no code with the library.

use restoration::{EpfSettings, Frame, LoupeSetup, Region, RegionAnswer, Settings};

/// A rectangle in numbers that do not overflow: where it starts and ends, columns first.
#[derive(Clone, Copy)]
struct Rectangle {
    start: [i128; 2],
    end: [i128; 2],
}

impl Rectangle {
    fn new(r: Region) -> Self {
        let start = [r.left.into(), r.top.into()];
        Self {
            start,
            end: [
                start[0] + i128::from(r.width),
                start[1] + i128::from(r.height),
            ],
        }
    }

    fn sides(self) -> [i128; 2] {
        [0, 1].map(|axis| self.end[axis] - self.start[axis])
    }

    /// Samples of one plane.
    fn area(self) -> i128 {
        self.sides().iter().product()
    }

    /// The limits of a region (4.1) whose sides are at least `least`.
    fn within_limits(self, least: i128) -> bool {
        let offset = |x: &i128| x.abs() <= 1_048_576;
        let side = |x: &i128| (least..=16_384).contains(x);
        let sides = self.sides();
        self.start.iter().all(offset) && sides.iter().all(side) && self.area() <= 16_777_216
    }

    fn is_empty(self) -> bool {
        self.sides().contains(&0)
    }

    fn is_inside(self, whole: Self) -> bool {
        [0, 1]
            .iter()
            .all(|&axis| whole.start[axis] <= self.start[axis] && self.end[axis] <= whole.end[axis])
    }

    /// Left and top are 0, 8, 16, ...
    fn on_blocks(self) -> bool {
        self.start.iter().all(|x| *x >= 0 && x % 8 == 0)
    }

    /// Blocks across and down (2.3).
    fn blocks(self) -> [i128; 2] {
        self.sides().map(|side| (side + 7) / 8)
    }

    fn region(self) -> Region {
        let [width, height] = self.sides();
        Region {
            left: self.start[0] as i32,
            top: self.start[1] as i32,
            width: width as u32,
            height: height as u32,
        }
    }
}

/// The margin (12.14), if both settings that decide it are in range.
fn margin(settings: Settings) -> Option<i128> {
    let gabor: &i128 = [0, 1].get(settings.gabor.enabled as usize)?;
    let epf: &i128 = [0, 2, 3, 6].get(settings.epf.iters as usize)?;
    Some(gabor + epf)
}

/// The widened rectangle (17.2).
fn widened(whole: Rectangle, wanted: Rectangle, margin: i128) -> Rectangle {
    let start = |axis: usize| 8 * (wanted.start[axis] - margin).div_euclid(8);
    let end = |axis: usize| wanted.end[axis] + margin;
    Rectangle {
        start: [0, 1].map(|axis| start(axis).max(whole.start[axis])),
        end: [0, 1].map(|axis| end(axis).min(whole.end[axis])),
    }
}

fn iterations_in_range(epf: EpfSettings) -> bool {
    epf.iters <= 3
}

/// A setup and the checks of it that both calls make.
struct Setup {
    whole: Rectangle,
    wanted: Rectangle,
    /// The number of planes, if it is one of those that there are.
    planes: Option<i128>,
    settings: Settings,
}

impl Setup {
    fn new(setup: LoupeSetup) -> Self {
        Self {
            whole: Rectangle::new(setup.whole),
            wanted: Rectangle::new(setup.wanted),
            planes: [1, 3].into_iter().find(|n| *n == i128::from(setup.planes)),
            settings: setup.settings,
        }
    }

    fn outside_limits(&self) -> bool {
        !self.whole.within_limits(1) || !self.wanted.within_limits(0)
    }

    fn wanted_outside(&self) -> bool {
        self.wanted.is_empty() || !self.wanted.is_inside(self.whole)
    }

    fn off_blocks(&self) -> bool {
        let epf = self.settings.epf;
        iterations_in_range(epf) && epf.iters > 0 && !self.whole.on_blocks()
    }

    fn widened(&self) -> Option<Rectangle> {
        margin(self.settings).map(|margin| widened(self.whole, self.wanted, margin))
    }

    /// The length of `out`, if the number of planes is one of those that there are.
    fn out(&self) -> Option<i128> {
        Some(self.planes? * self.wanted.area())
    }

    /// The length of both sets, if that is so and the settings that decide the margin are in range.
    fn sets(&self) -> Option<i128> {
        Some(self.planes? * self.widened()?.area())
    }

    /// The length of the block sigmas, if the settings that it needs are in range.
    fn sigmas(&self) -> Option<i128> {
        match self.settings.epf.iters {
            0 => Some(0),
            _ => self
                .widened()
                .map(|widened| widened.blocks().iter().product()),
        }
    }
}

/// The lengths that 17.5 requires of both sets, of the block sigmas and of `out`: none where the check is
/// passed over.
pub fn required_lengths(setup: LoupeSetup) -> [Option<i128>; 3] {
    let setup = Setup::new(setup);
    [setup.sets(), setup.sigmas(), setup.out()]
}

/// The lengths of the slices of floats that a call passes.
#[derive(Clone, Copy)]
pub struct Lengths {
    pub grids: i128,
    pub first: i128,
    pub second: i128,
    pub sigmas: i128,
    pub out: i128,
}

/// The answer of `loupe_widened` (17.3).
pub fn widened_answer(setup: LoupeSetup) -> RegionAnswer {
    let setup = Setup::new(setup);
    if setup.outside_limits() {
        return RegionAnswer::refused(4);
    }
    if setup.wanted_outside() {
        return RegionAnswer::refused(15);
    }
    if setup.off_blocks() {
        return RegionAnswer::refused(6);
    }
    let (Some(widened), Some(_)) = (setup.widened(), setup.planes) else {
        return RegionAnswer::refused(9);
    };
    assert!(widened.within_limits(1), "17.2: within 4.1");
    RegionAnswer {
        number: 0,
        region: widened.region(),
    }
}

/// The groups of a frame whose sides and settings are in range (7.1, 7.2).
#[derive(Clone, Copy)]
struct Groups {
    across: i128,
    down: i128,
    /// Blocks along a group's side.
    dim: i128,
}

fn frame_sides_in_limits(f: Frame) -> bool {
    [f.width, f.height]
        .iter()
        .all(|side| (1..=16_384).contains(side))
}

fn frame_settings_in_range(f: Frame) -> bool {
    [1, 2, 4, 8].contains(&f.upsampling) && f.lf_level <= 4 && f.group_size_shift <= 3
}

fn groups(f: Frame) -> Option<Groups> {
    if !frame_sides_in_limits(f) || !frame_settings_in_range(f) {
        return None;
    }
    let up = |a: i128, b: i128| (a + b - 1) / b;
    let dim = 128 << f.group_size_shift;
    let along = |side: u32| {
        let upsampled = up(side.into(), f.upsampling.into());
        up(up(upsampled, 8_i128.pow(f.lf_level)), 8 * dim)
    };
    Some(Groups {
        across: along(f.width),
        down: along(f.height),
        dim,
    })
}

/// Presence, width and height of each group's grid, if the table is readable (7.4).
fn entries(groups: Option<Groups>, table: &[u32]) -> Option<&[[u32; 3]]> {
    let Groups { across, down, .. } = groups?;
    let readable = table.len() as i128 == 3 * across * down;
    readable.then_some(table.as_chunks().0)
}

fn presence_out_of_range(entries: &[[u32; 3]]) -> bool {
    entries.iter().any(|[presence, ..]| *presence > 1)
}

fn grid_side_outside_limits(entries: &[[u32; 3]]) -> bool {
    let side = |length: &u32| (1..=1_024).contains(length);
    let outside =
        |[presence, width, height]: &[u32; 3]| *presence == 1 && !(side(width) && side(height));
    entries.iter().any(outside)
}

/// Cells of the present grids.
fn cells(entries: &[[u32; 3]]) -> i128 {
    let present = entries.iter().filter(|[presence, ..]| *presence == 1);
    let cells = |[_, width, height]: &[u32; 3]| i128::from(*width) * i128::from(*height);
    present.map(cells).sum()
}

/// A block of the rectangle is not held (7.5, 7.7).
fn not_held(r: Rectangle, groups: Groups, entries: &[[u32; 3]]) -> bool {
    let [across, down] = r.blocks();
    let [left, top] = r.start.map(|start| start / 8);
    let dim = groups.dim;
    let held = |bx: i128, by: i128| {
        let (column, row) = (bx / dim, by / dim);
        if column >= groups.across || row >= groups.down {
            return false;
        }
        let [presence, width, height] = entries[(row * groups.across + column) as usize];
        presence != 1 || bx % dim < width.into() && by % dim < height.into()
    };
    (top..top + down).any(|by| (left..left + across).any(|bx| !held(bx, by)))
}

/// The number of `loupe_smooth`: the first row of 17.5 that applies.
pub fn smooth_number(setup: LoupeSetup, frame: Frame, table: &[u32], given: Lengths) -> u32 {
    let setup = Setup::new(setup);
    let (epf, gabor) = (setup.settings.epf, setup.settings.gabor);
    let groups = groups(frame);
    let entries = entries(groups, table);
    let rows: [(u32, &dyn Fn() -> bool); 15] = [
        (4, &|| setup.outside_limits()),
        (4, &|| !frame_sides_in_limits(frame)),
        (4, &|| entries.is_some_and(grid_side_outside_limits)),
        (15, &|| setup.wanted_outside()),
        (6, &|| setup.off_blocks()),
        (7, &|| setup.out().is_some_and(|count| given.out != count)),
        (7, &|| {
            let differ = |count| [given.first, given.second] != [count; 2];
            setup.sets().is_some_and(differ)
        }),
        (7, &|| groups.is_some() && entries.is_none()),
        (7, &|| {
            let known = entries.filter(|entries| !presence_out_of_range(entries));
            known.is_some_and(|entries| given.grids != cells(entries))
        }),
        (7, &|| {
            setup.sigmas().is_some_and(|count| given.sigmas != count)
        }),
        (8, &|| {
            epf.iters > 0
                && matches!((setup.widened(), groups, entries), (Some(r), Some(groups), Some(entries))
                    if not_held(r, groups, entries))
        }),
        (9, &|| !iterations_in_range(epf) || gabor.enabled > 1),
        (9, &|| setup.planes.is_none()),
        (9, &|| !frame_settings_in_range(frame)),
        (9, &|| entries.is_some_and(presence_out_of_range)),
    ];
    let applies = rows.iter().find(|(_, applies)| applies());
    applies.map_or(0, |(number, _)| *number)
}

//! A frame with other groups and grids that give a part of a filter region the same sigmas, or the same frame.

use restoration::{BLOCK, GROUP_DIM, MAX_SIDE, Region, Settings, TABLE_ENTRY};

use super::alike;
use crate::{
    picture::agree,
    random::Random,
    runs::Input,
    sigma::{self, needed, sigma},
};

pub struct Groups {
    pub frame: oracle::Frame,
    pub table: Vec<u32>,
    pub grids: Vec<f32>,
}

/// The sigmas of the blocks of a filter region. Blocks are counted from the corner of the frame.
pub struct Sigmas {
    left: u32,
    top: u32,
    across: u32,
    down: u32,
    cells: Vec<f32>,
}

impl Sigmas {
    /// The sigmas in a part, on blocks, of the larger picture's filter region.
    pub fn of(larger: &Input, filter: Region) -> Self {
        let whole = larger.setup.filter;
        let all = larger.expected_sigmas();
        let stride = whole.width.div_ceil(BLOCK);
        let (left, top) = (filter.left as u32 / BLOCK, filter.top as u32 / BLOCK);
        let (across, down) = (filter.width.div_ceil(BLOCK), filter.height.div_ceil(BLOCK));
        let (right, below) = (
            left - whole.left as u32 / BLOCK,
            top - whole.top as u32 / BLOCK,
        );
        let cells = (0..across * down)
            .map(|n| (below + n / across) * stride + right + n % across)
            .map(|at| all[at as usize])
            .collect();
        Self {
            left,
            top,
            across,
            down,
            cells,
        }
    }

    fn at(&self, bx: u32, by: u32) -> f32 {
        self.cells[((by - self.top) * self.across + bx - self.left) as usize]
    }

    /// The blocks in a group.
    fn within(&self, group: (u32, u32), dim: u32) -> Vec<(u32, u32)> {
        let inside = |block: u32, group: u32| block / dim == group;
        let columns = (self.left..self.left + self.across).filter(|&bx| inside(bx, group.0));
        let rows = (self.top..self.top + self.down).filter(|&by| inside(by, group.1));
        let columns: Vec<u32> = columns.collect();
        rows.flat_map(|by| columns.iter().map(move |&bx| (bx, by)))
            .collect()
    }

    /// Each of the blocks has `modular`, as where a grid is missing.
    fn all_modular(&self, blocks: &[(u32, u32)], modular: f32) -> bool {
        blocks
            .iter()
            .all(|&(bx, by)| agree(self.at(bx, by), modular))
    }
}

/// Groups that give the part the larger picture's sigmas, its own among them; any groups without the edge filter.
pub fn groups(
    larger: &Input,
    filter: Region,
    settings: &mut Settings,
    random: &mut Random,
) -> Groups {
    if settings.epf.iters == 0 {
        let case = sigma::meeting(0, (1, 1), false, random);
        return Groups {
            frame: case.frame,
            table: case.table,
            grids: case.grids,
        };
    }
    let modular = larger.setup.settings.epf.sigma_for_modular;
    if random.once_in(3) {
        settings.epf.sigma_for_modular = alike(modular, random);
        return Groups::of(larger, random);
    }
    let expected = Sigmas::of(larger, filter);
    if random.once_in(2) {
        settings.epf.sigma_for_modular = random.one_of(&[expected.cells[0], modular]);
    }
    let (shift, counts) = counts(&expected, random);
    let mut groups = Groups {
        frame: sigma::frame(shift, counts, random),
        table: Vec::new(),
        grids: Vec::new(),
    };
    for group in 0..counts.0 * counts.1 {
        let place = (group % counts.0, group / counts.0);
        groups.add(&expected, place, settings.epf.sigma_for_modular, random);
    }
    groups
}

/// A group size shift, and groups per row and column: enough for all blocks, and sometimes one more.
fn counts(expected: &Sigmas, random: &mut Random) -> (u32, (u32, u32)) {
    // Larger groups have larger grids.
    let shift = random.one_of(&[0, 0, 0, 0, 0, 0, 0, 0, 0, 0, 0, 0, 1, 1, 1, 2]);
    let mut count = |first: u32, blocks: u32| {
        let needed = (first + blocks).div_ceil(GROUP_DIM << shift);
        let most = MAX_SIDE.div_ceil((BLOCK * GROUP_DIM) << shift);
        (needed + random.within(0, 1) as u32).min(most)
    };
    let counts = (
        count(expected.left, expected.across),
        count(expected.top, expected.down),
    );
    (shift, counts)
}

impl Groups {
    /// The larger picture's frame, table and grids, with other numbers in the entries of missing grids, which no
    /// call reads.
    fn of(larger: &Input, random: &mut Random) -> Self {
        let mut table = larger.table.clone();
        for entry in table.chunks_exact_mut(TABLE_ENTRY) {
            if entry[0] == 0 {
                entry[1..].fill_with(|| random.next() as u32);
            }
        }
        let grids = larger.grids.iter().map(|&cell| alike(cell, random));
        Self {
            frame: larger.frame,
            table,
            grids: grids.collect(),
        }
    }

    /// The next group's entry: no grid if its blocks have `modular` (not always), else a grid that has their
    /// sigmas.
    fn add(&mut self, expected: &Sigmas, group: (u32, u32), modular: f32, random: &mut Random) {
        let dim = GROUP_DIM << self.frame.group_size_shift;
        let blocks = expected.within(group, dim);
        if expected.all_modular(&blocks, modular) && random.once_in(2) {
            self.table
                .extend([0, random.next() as u32, random.next() as u32]);
            return;
        }
        let width = needed(group.0, dim, expected.left, BLOCK * expected.across);
        let height = needed(group.1, dim, expected.top, BLOCK * expected.down);
        let mut side = |need: u32| dim.min(need + random.within(0, 3) as u32).max(1);
        let (width, height) = (side(width), side(height));
        self.table.extend([1, width, height]);
        let start = self.grids.len();
        let filler = sigma(random);
        self.grids
            .resize(start + width as usize * height as usize, filler);
        for (bx, by) in blocks {
            let at = (by % dim) * width + bx % dim;
            self.grids[start + at as usize] = expected.at(bx, by);
        }
    }
}

//! Block sigmas: the number that a call is refused with, and the sigma of each block.

use std::collections::BTreeSet;

use restoration::{MAX_GRID_SIDE, TABLE_ENTRY};

use super::{
    BLOCK, Region, Ruled, blocks,
    checks::first_that_applies,
    group_sizes, limits,
    numbers::{BLOCK_NOT_HELD, OUT_OF_LIMITS, OUT_OF_RANGE, WRONG_LENGTH},
    pass::{flag, in_range},
    split_block,
};

/// The frame header fields that groups depend on.
#[derive(Debug, Clone, Copy)]
pub struct Frame {
    pub width: i128,
    pub height: i128,
    pub upsampling: i128,
    pub lf_level: i128,
    pub group_size_shift: i128,
}

impl Frame {
    /// Groups per row, per column and in all.
    pub fn groups(self) -> Ruled<[i128; 3]> {
        let [.., across, down, all] = group_sizes(
            self.width,
            self.height,
            self.upsampling,
            self.lf_level,
            self.group_size_shift,
        )?;
        Ok([across, down, all])
    }

    /// The group of a block column or row, and the block's index inside it.
    fn split(self, block: i128) -> [i128; 2] {
        split_block(block, self.group_size_shift).expect("the frame has groups")
    }
}

/// The inputs of the block sigmas. The filter region's left and top are multiples of 8.
#[derive(Debug, Clone, Copy)]
pub struct Input<'a> {
    pub on: u32,
    pub frame: Frame,
    pub filter: Region,
    pub table: &'a [u32],
    pub grids: usize,
    pub sigmas: usize,
}

impl Input<'_> {
    /// The table has one entry per group of the frame, so that its entries can be checked.
    pub fn table_fits(&self) -> bool {
        let groups = self.frame.groups();
        groups.is_ok_and(|[.., all]| self.table.len() as i128 == limits::TABLE_ENTRY * all)
    }
}

/// 0 if the call is accepted.
pub fn number(input: Input) -> u32 {
    let (on, region_fits) = (flag(input.on), in_range(input.filter));
    let (groups, table_fits) = (input.frame.groups(), input.table_fits());
    let entries = of_entries(input);
    first_that_applies(&[
        (OUT_OF_LIMITS, true, &|| !region_fits),
        (OUT_OF_LIMITS, true, &|| groups == Err(OUT_OF_LIMITS)),
        (OUT_OF_LIMITS, table_fits, &|| {
            entries.contains(&OUT_OF_LIMITS)
        }),
        (WRONG_LENGTH, region_fits && on.is_ok(), &|| {
            input.sigmas as i128 != expected_sigmas(input, on == Ok(true))
        }),
        (WRONG_LENGTH, groups.is_ok(), &|| !table_fits),
        (WRONG_LENGTH, table_fits, &|| {
            entries.contains(&WRONG_LENGTH)
        }),
        (
            BLOCK_NOT_HELD,
            on == Ok(true) && region_fits && table_fits,
            &|| !all_held(input),
        ),
        (OUT_OF_RANGE, true, &|| on.is_err()),
        (OUT_OF_RANGE, true, &|| groups == Err(OUT_OF_RANGE)),
        (OUT_OF_RANGE, table_fits, &|| {
            entries.contains(&OUT_OF_RANGE)
        }),
    ])
}

fn expected_sigmas(input: Input, on: bool) -> i128 {
    if on {
        blocks(input.filter.width) * blocks(input.filter.height)
    } else {
        0
    }
}

/// The numbers for the entries of a table that has one per group. Presence is 0 or 1, a present grid has
/// sides of 1 to [`MAX_GRID_SIDE`], and `grids` has the cells of all present grids. If a presence is out
/// of range, the number of cells is unknown.
pub fn of_entries(input: Input) -> Vec<u32> {
    let mut numbers = Vec::new();
    let mut cells = Some(0);
    for entry in input.table.chunks_exact(TABLE_ENTRY) {
        match entry[0] {
            0 => {}
            1 => {
                let side = |length: u32| (1..=MAX_GRID_SIDE).contains(&length);
                if !side(entry[1]) || !side(entry[2]) {
                    numbers.push(OUT_OF_LIMITS);
                }
                cells = cells.map(|n| n + u128::from(entry[1]) * u128::from(entry[2]));
            }
            _ => {
                numbers.push(OUT_OF_RANGE);
                cells = None;
            }
        }
    }
    if cells.is_some_and(|cells| cells != input.grids as u128) {
        numbers.push(WRONG_LENGTH);
    }
    numbers
}

/// Block columns and rows of the filter region.
fn touched(filter: Region) -> (core::ops::Range<i128>, core::ops::Range<i128>) {
    let along = |start: i128, side| start / BLOCK..start / BLOCK + blocks(side);
    (
        along(filter.left, filter.width),
        along(filter.top, filter.height),
    )
}

/// Each block of the filter region is in a group of the frame and in the group's grid, if it is present.
pub fn all_held(input: Input) -> bool {
    let [across, down, _] = input.frame.groups().expect("checked before");
    let (columns, rows) = touched(input.filter);
    rows.clone().all(|by| {
        let [group_row, row] = input.frame.split(by);
        columns.clone().all(|bx| {
            let [group_column, column] = input.frame.split(bx);
            if group_column >= across || group_row >= down {
                return false;
            }
            let group = (group_row * across + group_column) as usize;
            let entry = &input.table[TABLE_ENTRY * group..][..TABLE_ENTRY];
            entry[0] != 1 || column < entry[1].into() && row < entry[2].into()
        })
    })
}

/// The groups that have a block of the filter region, which is inside the frame.
pub fn touched_groups(frame: Frame, filter: Region) -> Vec<usize> {
    let [across, ..] = frame.groups().expect("a frame in range");
    let (columns, rows) = touched(filter);
    let groups = |blocks: core::ops::Range<i128>| -> BTreeSet<i128> {
        blocks.map(|block| frame.split(block)[0]).collect()
    };
    let (columns, rows) = (groups(columns), groups(rows));
    rows.iter()
        .flat_map(|row| columns.iter().map(move |column| row * across + column))
        .map(|group| group as usize)
        .collect()
}

/// The sigma of each block of the filter region, for an accepted call: its cell in its group's grid or, where
/// that grid is missing, `modular`.
pub fn sigmas(input: Input, grids: &[f32], modular: f32) -> Vec<f32> {
    let [across, ..] = input.frame.groups().expect("checked before");
    let cells = |entry: &[u32]| (entry[0] * entry[1] * entry[2]) as usize;
    let start = |group: usize| -> usize {
        let before = &input.table[..TABLE_ENTRY * group];
        before
            .chunks_exact(TABLE_ENTRY)
            .filter(|e| e[0] == 1)
            .map(cells)
            .sum()
    };
    let starts: Vec<usize> = (0..input.table.len() / TABLE_ENTRY).map(start).collect();
    let (columns, rows) = touched(input.filter);
    let sigma = |bx: i128, by: i128| {
        let [group_column, column] = input.frame.split(bx);
        let [group_row, row] = input.frame.split(by);
        let group = (group_row * across + group_column) as usize;
        let entry = &input.table[TABLE_ENTRY * group..][..TABLE_ENTRY];
        if entry[0] == 1 {
            grids[starts[group] + row as usize * entry[1] as usize + column as usize]
        } else {
            modular
        }
    };
    rows.flat_map(|by| columns.clone().map(move |bx| (bx, by)))
        .map(|(bx, by)| sigma(bx, by))
        .collect()
}

//! The number that an edge-preserving step is refused with.

use super::{
    BLOCK, Region, Ruled, blocks,
    numbers::{NOT_ON_BLOCKS, OUT_OF_RANGE, WRONG_LENGTH},
    pass,
};

const LAST_STEP: u32 = 2;

/// The inputs of a step, with the lengths of its slices.
#[derive(Debug, Clone, Copy)]
pub struct Input {
    pub image: Region,
    pub filter: Region,
    pub planes: u32,
    pub preserve_outside: u32,
    pub step: u32,
    pub rows: (i128, i128),
    pub sigmas: usize,
    pub sets: [usize; 2],
}

/// 0 if the step is accepted.
pub fn number(input: Input) -> u32 {
    checked(input).err().unwrap_or(0)
}

fn checked(input: Input) -> Ruled<()> {
    let Input { image, filter, .. } = input;
    pass::placed(image, filter)?;
    let on_block = |place: i128| place >= 0 && place % BLOCK == 0;
    if !on_block(filter.left) || !on_block(filter.top) {
        return Err(NOT_ON_BLOCKS);
    }
    pass::sets(image, input.planes, input.sets)?;
    if input.sigmas as i128 != blocks(filter.width) * blocks(filter.height) {
        return Err(WRONG_LENGTH);
    }
    pass::planes(input.planes)?;
    if input.step > LAST_STEP {
        return Err(OUT_OF_RANGE);
    }
    let full = pass::flag(input.preserve_outside)?;
    let result = if full { image } else { filter };
    pass::rows(result, input.rows)
}

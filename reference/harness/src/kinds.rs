//! Kinds of inputs: the range of the type, the valid numbers, and the limits.

use std::collections::BTreeSet;

use crate::{expected::limits::*, random::Random};

pub struct Kind {
    /// The smallest and largest number of its type.
    pub range: (i128, i128),
    /// The numbers that are in range.
    pub valid: Valid,
    /// Numbers at and next to every limit except those of the type.
    pub limits: &'static [i128],
    /// The few of them that are combined if there are many inputs.
    pub core: &'static [i128],
}

pub enum Valid {
    From(i128, i128),
    Of(&'static [i128]),
}

/// How a case's inputs are drawn.
#[derive(Clone, Copy)]
pub enum Draw {
    Small,
    /// In range and within `MAX_SIDE` of zero, so that regions meet.
    Close,
    Valid,
    Limits,
    Any,
}

impl Kind {
    /// The limits and the ends of the type, in ascending order.
    pub fn edges(&self) -> Vec<i128> {
        let (least, most) = self.range;
        let ends = [least, least + 1, most - 1, most];
        let all: BTreeSet<i128> = self.limits.iter().copied().chain(ends).collect();
        all.into_iter().collect()
    }

    pub fn draw(&self, how: Draw, random: &mut Random) -> i128 {
        let (least, most) = self.range;
        match how {
            Draw::Small => random.within(least.max(-40), most.min(40)),
            Draw::Close => self.draw_valid(MAX_SIDE, random),
            Draw::Valid => self.draw_valid(i128::MAX, random),
            Draw::Limits if random.within(0, 2) == 0 => {
                let near = self.draw_limit(random) + random.within(-2, 2);
                near.clamp(least, most)
            }
            Draw::Any if random.within(0, 3) == 0 => random.within(least, most),
            Draw::Limits | Draw::Any => self.draw_valid(i128::MAX, random),
        }
    }

    fn draw_limit(&self, random: &mut Random) -> i128 {
        let (least, most) = self.range;
        match random.within(0, 4) {
            0 => least,
            1 => most,
            _ => random.one_of(self.limits),
        }
    }

    fn draw_valid(&self, farthest: i128, random: &mut Random) -> i128 {
        match self.valid {
            Valid::From(least, most) => random.within(least.max(-farthest), most.min(farthest)),
            Valid::Of(list) => random.one_of(list),
        }
    }
}

const I32: (i128, i128) = (i32::MIN as i128, i32::MAX as i128);
const U32: (i128, i128) = (0, u32::MAX as i128);
const ISIZE: (i128, i128) = (isize::MIN as i128, isize::MAX as i128);
const USIZE: (i128, i128) = (0, usize::MAX as i128);

/// The main limits of left and top, and of sides.
const AROUND_OFFSETS: [i128; 5] = [-MAX_OFFSET - 1, -MAX_OFFSET, 0, MAX_OFFSET, MAX_OFFSET + 1];
const AROUND_SIDES: [i128; 4] = [0, 1, MAX_SIDE, MAX_SIDE + 1];
/// Samples along a side of a group whose group size shift is 0.
const GROUP: i128 = BLOCK * GROUP_DIM;

/// Left or top of a region.
pub const CORNER: Kind = Kind {
    range: I32,
    valid: Valid::From(-MAX_OFFSET, MAX_OFFSET),
    limits: &[
        -MAX_OFFSET - 1,
        -MAX_OFFSET,
        -MAX_OFFSET + 1,
        -MAX_SIDE,
        -1,
        0,
        1,
        MAX_SIDE,
        MAX_OFFSET - 1,
        MAX_OFFSET,
        MAX_OFFSET + 1,
    ],
    core: &AROUND_OFFSETS,
};

/// Width or height of a region.
pub const SIDE: Kind = Kind {
    range: U32,
    valid: Valid::From(0, MAX_SIDE),
    limits: &[
        0,
        1,
        2,
        MAX_SIDE - 1,
        MAX_SIDE,
        MAX_SIDE + 1,
        I32.1,
        I32.1 + 1,
    ],
    core: &AROUND_SIDES,
};

/// How far a region is translated.
pub const MOVE: Kind = Kind {
    range: I32,
    valid: Valid::From(-MAX_OFFSET, MAX_OFFSET),
    limits: &[
        -2 * MAX_OFFSET - 1,
        -2 * MAX_OFFSET,
        -2 * MAX_OFFSET + 1,
        -MAX_OFFSET - 1,
        -MAX_OFFSET,
        -1,
        0,
        1,
        MAX_OFFSET,
        MAX_OFFSET + 1,
        2 * MAX_OFFSET - 1,
        2 * MAX_OFFSET,
        2 * MAX_OFFSET + 1,
    ],
    core: &[-2 * MAX_OFFSET, -MAX_OFFSET, 0, MAX_OFFSET, 2 * MAX_OFFSET],
};

/// How far a region is padded.
pub const PADDING: Kind = Kind {
    range: U32,
    valid: Valid::From(0, MAX_SIDE / 2),
    limits: &[
        0,
        1,
        2,
        MAX_SIDE / 2 - 1,
        MAX_SIDE / 2,
        MAX_SIDE / 2 + 1,
        MAX_SIDE,
        MAX_SIDE + 1,
        MAX_OFFSET - 1,
        MAX_OFFSET,
        MAX_OFFSET + 1,
        2 * MAX_OFFSET,
        2 * MAX_OFFSET + 1,
        I32.1,
        I32.1 + 1,
    ],
    core: &[0, 1, MAX_SIDE / 2, MAX_SIDE / 2 + 1],
};

/// The shift of `downsample`.
pub const FACTOR: Kind = Kind {
    range: U32,
    valid: Valid::From(0, MAX_DOWNSAMPLE),
    limits: &[
        0,
        1,
        2,
        MAX_DOWNSAMPLE - 1,
        MAX_DOWNSAMPLE,
        MAX_DOWNSAMPLE + 1,
        31,
        32,
        33,
    ],
    core: &[0, 1, MAX_DOWNSAMPLE, MAX_DOWNSAMPLE + 1],
};

/// The grid of `container_aligned`.
pub const ALIGNMENT: Kind = Kind {
    range: U32,
    valid: Valid::Of(&[
        1, 2, 4, 8, 16, 32, 64, 128, 256, 512, 1_024, 2_048, 4_096, MAX_ALIGNMENT,
    ]),
    limits: &[
        0, 1, 2, 3, 4, 7, 8, 9, 16, 32, 64, 128, 256, 512, 1_024, 2_048, 4_095, 4_096, 8_191,
        MAX_ALIGNMENT, 8_193, 12_288, 16_384, 2_147_483_648,
    ],
    core: &[0, 1, 8, MAX_ALIGNMENT, 2 * MAX_ALIGNMENT],
};

/// The offset that is mirrored.
pub const OFFSET: Kind = Kind {
    range: ISIZE,
    valid: Valid::From(-MAX_OFFSET, MAX_OFFSET),
    limits: &[
        I32.0 - 1,
        I32.0,
        -MAX_OFFSET - 1,
        -MAX_OFFSET,
        -MAX_OFFSET + 1,
        -2 * MAX_SIDE - 1,
        -2 * MAX_SIDE,
        -2 * MAX_SIDE + 1,
        -MAX_SIDE - 1,
        -MAX_SIDE,
        -MAX_SIDE + 1,
        -2,
        -1,
        0,
        1,
        2,
        MAX_SIDE - 1,
        MAX_SIDE,
        MAX_SIDE + 1,
        2 * MAX_SIDE - 1,
        2 * MAX_SIDE,
        2 * MAX_SIDE + 1,
        MAX_OFFSET - 1,
        MAX_OFFSET,
        MAX_OFFSET + 1,
        I32.1,
        I32.1 + 1,
    ],
    core: &AROUND_OFFSETS,
};

/// The length at whose ends offsets are mirrored.
pub const LENGTH: Kind = Kind {
    range: USIZE,
    valid: Valid::From(1, MAX_SIDE),
    limits: &[
        0,
        1,
        2,
        3,
        MAX_SIDE / 2,
        MAX_SIDE - 1,
        MAX_SIDE,
        MAX_SIDE + 1,
        I32.1 + 1,
        U32.1,
        U32.1 + 1,
    ],
    core: &AROUND_SIDES,
};

/// A side of a frame.
pub const FRAME_SIDE: Kind = Kind {
    range: U32,
    valid: Valid::From(1, MAX_SIDE),
    limits: &[
        0,
        1,
        2,
        BLOCK - 1,
        BLOCK,
        BLOCK + 1,
        GROUP_DIM - 1,
        GROUP_DIM,
        GROUP_DIM + 1,
        GROUP - 1,
        GROUP,
        GROUP + 1,
        2 * GROUP,
        2 * GROUP + 1,
        4 * GROUP,
        4 * GROUP + 1,
        8 * GROUP - 1,
        8 * GROUP,
        8 * GROUP + 1,
        MAX_SIDE - 1,
        MAX_SIDE,
        MAX_SIDE + 1,
        I32.1 + 1,
    ],
    core: &AROUND_SIDES,
};

pub const UPSAMPLING: Kind = Kind {
    range: U32,
    valid: Valid::Of(&[1, 2, 4, 8]),
    limits: &[0, 1, 2, 3, 4, 5, 7, 8, 9, 16],
    core: &[0, 1, 8, 16],
};

pub const LF_LEVEL: Kind = Kind {
    range: U32,
    valid: Valid::From(0, MAX_LF_LEVEL),
    limits: &[0, 1, 2, 3, MAX_LF_LEVEL, MAX_LF_LEVEL + 1, 11],
    core: &[0, MAX_LF_LEVEL, MAX_LF_LEVEL + 1],
};

pub const GROUP_SIZE_SHIFT: Kind = Kind {
    range: U32,
    valid: Valid::From(0, MAX_GROUP_SIZE_SHIFT),
    limits: &[
        0,
        1,
        2,
        MAX_GROUP_SIZE_SHIFT,
        MAX_GROUP_SIZE_SHIFT + 1,
        25,
        32,
    ],
    core: &[0, MAX_GROUP_SIZE_SHIFT, MAX_GROUP_SIZE_SHIFT + 1],
};

/// A block column or row.
pub const BLOCK_PLACE: Kind = Kind {
    range: U32,
    valid: Valid::From(0, (MAX_OFFSET + MAX_SIDE) / BLOCK),
    limits: &[
        0,
        1,
        GROUP_DIM - 1,
        GROUP_DIM,
        GROUP_DIM + 1,
        2 * GROUP_DIM - 1,
        2 * GROUP_DIM,
        2 * GROUP_DIM + 1,
        4 * GROUP_DIM - 1,
        4 * GROUP_DIM,
        4 * GROUP_DIM + 1,
        8 * GROUP_DIM - 1,
        8 * GROUP_DIM,
        8 * GROUP_DIM + 1,
        MAX_OFFSET / BLOCK - 1,
        MAX_OFFSET / BLOCK,
        I32.1,
        I32.1 + 1,
    ],
    core: &[0, 1, GROUP_DIM, U32.1],
};

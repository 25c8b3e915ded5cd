//! A frame's groups, and the sigmas of blocks.

use crate::boundary::{answers, defaults, entries};

/// The frame header fields that groups depend on. The default has the header's default values and no
/// width and height yet.
#[repr(C)]
#[derive(Debug, Clone, Copy, PartialEq, Eq)]
pub struct Frame {
    pub width: u32,
    pub height: u32,
    pub upsampling: u32,
    pub lf_level: u32,
    pub group_size_shift: u32,
}

impl Frame {
    pub const DEFAULT: Self = Self {
        width: 0,
        height: 0,
        upsampling: 1,
        lf_level: 0,
        group_size_shift: 1,
    };

    /// A frame of this width and height; all other fields have their defaults.
    ///
    /// ```
    /// # use restoration::{Frame, group_sizes};
    /// let sizes = group_sizes(Frame::with_size(4000, 3001)).value()?;
    /// assert_eq!((sizes.sample_width, sizes.group_dim, sizes.num_groups), (4000, 256, 4));
    /// # Ok::<(), restoration::Refusal>(())
    /// ```
    pub const fn with_size(width: u32, height: u32) -> Self {
        Self {
            width,
            height,
            ..Self::DEFAULT
        }
    }
}

defaults! { Frame }

#[repr(C)]
#[derive(Debug, Clone, Copy, PartialEq, Eq)]
pub struct GroupSizes {
    pub sample_width: u32,
    pub sample_height: u32,
    pub group_dim: u32,
    pub group_shift: u32,
    pub groups_per_row: u32,
    pub groups_per_column: u32,
    pub num_groups: u32,
}

/// A filter region that starts at multiples of 8: its left and top in blocks, its sides in samples.
#[repr(C)]
#[derive(Debug, Clone, Copy, Default, PartialEq, Eq)]
pub struct Blocks {
    pub left: u32,
    pub top: u32,
    pub width: u32,
    pub height: u32,
}

answers! {
    FrameAnswer { sizes: GroupSizes }
    SplitAnswer { group: u32, inner: u32 }
}

entries! {
    /// ```
    /// // `crates/frame/specs/Examples.antt`: two by two groups of 128 blocks each way.
    /// # use restoration::Frame;
    /// let frame = Frame { upsampling: 2, group_size_shift: 0, ..Frame::with_size(4000, 3001) };
    /// let sizes = restoration::group_sizes(frame).value()?;
    /// assert_eq!((sizes.sample_width, sizes.sample_height), (2000, 1501));
    /// assert_eq!((sizes.group_dim, sizes.num_groups), (128, 4));
    /// assert_eq!(restoration::split_block(300, 0).value()?, (2, 44));
    /// # Ok::<(), restoration::Refusal>(())
    /// ```
    group_sizes = restoration_group_sizes(f: Frame) -> FrameAnswer;

    /// The group of a block column or row, and the block's index inside that group.
    split_block = restoration_split_block(block: u32, group_size_shift: u32) -> SplitAnswer;

    /// Fills in one sigma per block if the edge filter is on (1); if it is off (0) there are none. The
    /// table has [`crate::TABLE_ENTRY`] numbers per group: whether it has a grid, the grid's width and
    /// its height. `grids` has the cells of all grids, one grid after another. Blocks of a group without a
    /// grid have `sigma_for_modular`.
    ///
    /// ```
    /// // Specification 14.9: group row 0 has grids, row 1 none: block row 128 has `sigma_for_modular`, 1.
    /// # use restoration::{Blocks, Frame};
    /// let frame = Frame { group_size_shift: 0, ..Frame::with_size(8, 1032) };
    /// let blocks = Blocks { width: 8, height: 1032, ..Blocks::default() };
    /// let grid: Vec<f32> = (0..128).map(|row| row as f32).collect();
    /// let mut sigmas = [0.0; 129];
    /// let table = [1, 1, 128, 0, 0, 0];
    /// let number = restoration::block_sigmas(1, frame, blocks, &table, &grid, 1.0, &mut sigmas);
    /// restoration::accepted(number)?;
    /// assert_eq!(sigmas[126..], [126.0, 127.0, 1.0]);
    /// # Ok::<(), restoration::Refusal>(())
    /// ```
    block_sigmas = restoration_block_sigmas(
        on: u32, frame: Frame, blocks: Blocks, table: &[u32], grids: &[f32],
        sigma_for_modular: f32, sigmas: &mut [f32]
    ) -> u32;
}

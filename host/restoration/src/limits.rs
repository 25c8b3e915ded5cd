//! Fixed sizes and limits of the library, each under one name.
//!
//! ```
//! # use restoration::*;
//! let longest = Region::with_size(MAX_SIDE, 1);
//! assert_eq!(region_right(longest).value(), Ok(MAX_SIDE as i32));
//! let longer = Region::with_size(MAX_SIDE + 1, 1);
//! assert_eq!(region_right(longer).value(), Err(Refusal::OutOfLimits));
//! ```

/// Channels, each of which has weights and a scale: planes of a picture that is not grey, and most planes
/// of any.
pub const CHANNELS: usize = 3;
/// Planes of a picture with all channels, as [`crate::Setup`] takes the number.
pub const PLANES: u32 = CHANNELS as u32;
/// Planes of a grey picture.
pub const GREY_PLANES: u32 = 1;
/// Samples along a side of a block.
pub const BLOCK: u32 = 8;
/// Blocks along a side of a group whose group size shift is 0.
pub const GROUP_DIM: u32 = 128;
/// Numbers per group in a table: whether it has a grid, the grid's width and its height.
pub const TABLE_ENTRY: usize = 3;

/// Longest side of a region or a frame, in samples.
pub const MAX_SIDE: u32 = 16_384;
/// Largest area of an image region or a filter region, in samples.
pub const MAX_AREA: u32 = 16_777_216;
/// Most samples of an image region's planes together.
pub const MAX_SAMPLES: usize = CHANNELS * MAX_AREA as usize;
/// Largest absolute value of a region's left and top, and of an offset to mirror.
pub const MAX_OFFSET: i32 = 1_048_576;
/// Largest factor of [`crate::region_downsample`].
pub const MAX_DOWNSAMPLE: u32 = 16;
/// Largest grid of [`crate::region_container_aligned`].
pub const MAX_ALIGNMENT: u32 = 8_192;
pub const MAX_LF_LEVEL: u32 = 4;
pub const MAX_GROUP_SIZE_SHIFT: u32 = 3;
/// Longest side of a group's grid, in blocks.
pub const MAX_GRID_SIDE: u32 = 1_024;
/// Longest slice that a header is read from, in bytes.
pub const MAX_HEADER_BYTES: usize = 65_536;
/// Most iterations of the edge-preserving filter.
pub const MAX_ITERS: u32 = 3;
/// Most bands of a run.
pub const MAX_BANDS: usize = 256;
/// Most rectangles of a cut file.
pub const MAX_RECTANGLES: usize = 64;
/// Longest cut file, in bytes.
pub const MAX_CUT_FILE: usize = 16_777_216;

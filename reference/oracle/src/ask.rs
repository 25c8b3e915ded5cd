//! Plain functions that call the compiled files; nothing here computes what is compared.

mod filters;
mod headers;
mod sizes;

pub(crate) use filters::count_one_row;
pub use filters::*;
pub use headers::*;
pub use sizes::*;

pub use crate::filter::rows::{SigmaRows, gabor_plane};

use crate::{Region, util};

/// `Region::container_aligned`, which is private in the original.
pub fn container_aligned(region: Region, grid_dim: u32) -> Region {
    region.container_aligned(grid_dim)
}

/// `mirror` of `util.rs`.
pub fn mirror(offset: isize, len: usize) -> usize {
    util::mirror(offset, len)
}

//! Small stand-ins for the dependencies of the compiled files.
//!
//! The names are those that the files use; each crate that compiles them imports this one under the
//! names of the original crates (`jxl_grid`, `jxl_bitstream`, ...). Parts that no comparison reaches
//! answer `Error::NotStoodIn`.

mod bits;
mod bundle;
mod error;
mod grid;
mod image;
mod tasks;

pub use bits::{Bitstream, U};
pub use bundle::{Bundle, Name};
pub use error::Error;
pub use grid::{AlignedGrid, AllocTracker};
pub use image::{
    BitDepth, ChannelShift, Extensions, HfMetadata, ImageHeader, ImageMetadata, Sample, SizeHeader,
};
pub use tasks::{Cancelled, Tasks, block_on};

/// `tracing::debug!`, silent.
#[macro_export]
macro_rules! debug {
    ($($part:tt)*) => {};
}

/// `tracing::warn!`, silent.
#[macro_export]
macro_rules! warn {
    ($($part:tt)*) => {};
}

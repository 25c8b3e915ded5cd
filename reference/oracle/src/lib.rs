//! The original Rust behind plain functions.
//!
//! `region.rs`, `filter/{epf,gabor,owned}.rs` and `filter/impls/generic*` are compiled whole and
//! unchanged; `mirror` of `util.rs` and the channel exchange of `image.rs` are extracted from their
//! files by the build. The package `oracle-uncarried` has the same functions with one statement more in
//! its copy of `filter/epf.rs`: a block without a grid does not have the sigma of the block above.

extern crate alloc;
extern crate standins as jxl_grid;
extern crate standins as jxl_image;
extern crate standins as jxl_modular;
extern crate standins as jxl_threadpool;
extern crate standins as tracing;

mod ask;

pub use ask::*;
pub use region::Region;
pub use standins::Error;

pub(crate) use image::{ImageBuffer, ImageWithRegion};

type Result<T> = core::result::Result<T, Error>;

include!(concat!(env!("OUT_DIR"), "/modules.rs"));

/// Part of `util.rs`.
#[allow(clippy::all, warnings)]
mod util {
    include!(concat!(env!("OUT_DIR"), "/mirror.rs"));
}

/// Part of `image.rs`.
#[allow(clippy::all, warnings)]
mod image {
    use crate::Region;
    use jxl_grid::{AlignedGrid, AllocTracker};
    use jxl_modular::ChannelShift;

    include!(concat!(env!("OUT_DIR"), "/channels.rs"));
}

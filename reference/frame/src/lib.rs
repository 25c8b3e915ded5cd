//! `jxl-frame`'s `filter.rs` and `header.rs`, whole and unchanged.

extern crate alloc;
extern crate standins as jxl_bitstream;
extern crate standins as jxl_image;
extern crate standins as jxl_oxide_common;
extern crate standins as tracing;

pub use header::FrameHeader;
pub use standins::Error;

pub type Result<T> = core::result::Result<T, Error>;

include!(concat!(env!("OUT_DIR"), "/modules.rs"));

/// Stand-in for the data of a frame.
pub mod data {
    use core::marker::PhantomData;
    use standins::{HfMetadata, Sample};

    /// An LF group; the filters read only its block sigmas.
    pub struct LfGroup<S: Sample> {
        pub hf_meta: Option<HfMetadata>,
        pub samples: PhantomData<S>,
    }
}

//! Safe functions over the proved library, `librestoration.a` (crates `export_*`).
//!
//! Each function has the parameters and the answer of an entry point. The library checks its inputs
//! itself and answers a number for what it refuses, so nothing is checked here; `value` turns an
//! answer into a `Result`, whose error is a [`Refusal`]. [`Loupe`] filters rectangles of a picture, and
//! [`Smoothing`] is a run with its buffers, which tells how far it is ([`Progress`]):
//!
//! ```
//! use restoration::{Frame, GaborSettings, Region, Settings, Setup, Smoothing};
//!
//! // The Gabor-like filter alone, on three planes of one row.
//! let gabor = GaborSettings::with_weights([[0.5, 0.25]; 3]);
//! let settings = Settings { gabor, ..Settings::OFF };
//! let setup = Setup { settings, ..Setup::whole(Region::with_size(3, 1)) };
//! // One group, which has no grid of sigmas.
//! let (frame, table, grids) = (Frame::with_size(3, 1), [0, 0, 0], []);
//! let planes = [[0.0, 16.0, 0.0]; 3].concat();
//! let smooth = Smoothing::start(setup, frame, &table, &grids, planes)?.finish()?;
//! // Specification 14.7: 4 8 4.
//! assert_eq!(smooth, [[4.0, 8.0, 4.0]; 3].concat());
//! # Ok::<(), restoration::Refusal>(())
//! ```

mod boundary;
mod cut;
mod frame;
mod header;
mod layout;
mod limits;
mod loupe;
mod pass;
mod progress;
mod refusal;
mod region;
mod run;
mod smoothing;

pub use self::{
    cut::*, frame::*, header::*, limits::*, loupe::*, pass::*, progress::*, refusal::*, region::*,
    run::*, smoothing::*,
};

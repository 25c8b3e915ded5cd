//! Regions of a picture.

use crate::{
    PLANES,
    boundary::{answers, entries},
};

/// ```
/// # use restoration::*;
/// // A rectangle of a picture, widened by 7 samples and clipped, then moved out of the picture.
/// let picture = Region::with_size(100, 80);
/// let rectangle = Region { left: 3, top: 20, width: 10, height: 10 };
/// let widened = region_pad(rectangle, 7).value()?;
/// let clipped = region_intersection(widened, picture).value()?;
/// assert_eq!(clipped, Region { left: 0, top: 13, width: 20, height: 24 });
/// assert_eq!((region_right(clipped).value()?, region_bottom(clipped).value()?), (20, 37));
/// assert!(region_contains(picture, clipped).value()?);
/// let apart = region_translate(clipped, 100, 0).value()?;
/// assert!(region_is_empty(region_intersection(apart, picture).value()?).value()?);
/// # Ok::<(), Refusal>(())
/// ```
#[repr(C)]
#[derive(Debug, Clone, Copy, Default, PartialEq, Eq)]
pub struct Region {
    pub left: i32,
    pub top: i32,
    pub width: u32,
    pub height: u32,
}

impl Region {
    /// A region of this width and height with left and top 0.
    pub const fn with_size(width: u32, height: u32) -> Self {
        Self {
            left: 0,
            top: 0,
            width,
            height,
        }
    }

    /// How many samples one plane of this region has, or the largest number where it does not fit.
    pub const fn area(self) -> usize {
        (self.width as usize).saturating_mul(self.height as usize)
    }

    /// How many samples so many planes of this region have, or the largest number where it does not fit.
    pub const fn samples_in(self, planes: u32) -> usize {
        (planes as usize).saturating_mul(self.area())
    }

    /// The same of three planes.
    pub const fn sample_count(self) -> usize {
        self.samples_in(PLANES)
    }
}

answers! {
    RegionAnswer { region: Region }
    BoolAnswer { holds: bool }
    EdgeAnswer { edge: i32 }
}

entries! {
    region_is_empty = restoration_region_is_empty(r: Region) -> BoolAnswer;
    region_right = restoration_region_right(r: Region) -> EdgeAnswer;
    region_bottom = restoration_region_bottom(r: Region) -> EdgeAnswer;
    region_contains = restoration_region_contains(r: Region, target: Region) -> BoolAnswer;
    region_translate = restoration_region_translate(r: Region, x: i32, y: i32) -> RegionAnswer;
    region_intersection = restoration_region_intersection(a: Region, b: Region) -> RegionAnswer;
    region_pad = restoration_region_pad(r: Region, size: u32) -> RegionAnswer;

    /// All edges divided by 2 to the power of `factor`, rounded outward.
    ///
    /// ```
    /// // Specification 14.5: left -3, width 5.
    /// let r = restoration::Region { left: -3, top: -3, width: 5, height: 5 };
    /// let down = restoration::region_downsample(r, 1).value()?;
    /// assert_eq!((down.left, down.width), (-2, 3));
    /// let aligned = restoration::region_container_aligned(r, 8).value()?;
    /// assert_eq!((aligned.left, aligned.width), (-8, 16));
    /// # Ok::<(), restoration::Refusal>(())
    /// ```
    region_downsample = restoration_region_downsample(r: Region, factor: u32) -> RegionAnswer;
    region_container_aligned =
        restoration_region_container_aligned(r: Region, grid_dim: u32) -> RegionAnswer;
}

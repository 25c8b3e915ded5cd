use crate::AlignedGrid;

/// Integer samples of a modular image.
pub trait Sample {}

impl Sample for i32 {}

/// Block sigmas of a group; the other parts of the original are not read by the filters.
#[derive(Debug)]
pub struct HfMetadata {
    pub epf_sigma: AlignedGrid<f32>,
}

/// How much smaller a channel is than its image, as a shift.
#[derive(Debug, Clone, Copy)]
pub enum ChannelShift {
    Shifts(u32),
}

impl ChannelShift {
    pub fn from_shift(shift: u32) -> Self {
        Self::Shifts(shift)
    }

    pub fn hshift(self) -> u32 {
        let Self::Shifts(shift) = self;
        shift
    }

    pub fn vshift(self) -> u32 {
        self.hshift()
    }

    pub fn shift_size(self, (width, height): (u32, u32)) -> (u32, u32) {
        let side = 1 << self.hshift();
        (width.div_ceil(side), height.div_ceil(side))
    }
}

/// Width and height of an image.
#[derive(Debug, Default)]
pub struct SizeHeader {
    pub width: u32,
    pub height: u32,
}

/// An image without orientation; no comparison rotates one.
#[derive(Debug, Default)]
pub struct ImageHeader {
    pub size: SizeHeader,
    pub metadata: ImageMetadata,
}

impl ImageHeader {
    pub fn width_with_orientation(&self) -> u32 {
        self.size.width
    }

    pub fn height_with_orientation(&self) -> u32 {
        self.size.height
    }
}

#[derive(Debug, Default)]
pub struct ImageMetadata;

impl ImageMetadata {
    pub fn apply_orientation(
        &self,
        width: u32,
        height: u32,
        left: i32,
        top: i32,
        _inverse: bool,
    ) -> (u32, u32, i32, i32) {
        (width, height, left, top)
    }
}

/// How samples are stored; no comparison reads one.
#[derive(Debug, Default)]
pub struct BitDepth;

/// Extensions of a bundle; no comparison reads one.
#[derive(Debug, Default)]
pub struct Extensions;

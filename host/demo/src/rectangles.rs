//! A picture cut into rectangles laid edge to edge.

use restoration::{Refusal, Region};

use crate::{picture::Picture, smooth::Filters};

/// Sides of a rectangle. All start at blocks, so a margin one too few shows only at the right and
/// bottom: at the left and top, moving down to a block adds the missing sample.
pub const SIDES: (u32, u32) = (128, 96);

/// All rectangles of a picture, smoothed one by one and laid edge to edge.
pub fn lay(
    picture: &Picture,
    smooth: impl Fn(Region) -> Result<Picture, Refusal>,
) -> Result<Picture, Refusal> {
    let mut laid = Picture {
        region: picture.region,
        planes: vec![f32::NAN; picture.planes.len()],
    };
    for part in rectangles(picture.region) {
        laid.lay(&smooth(part)?);
    }
    Ok(laid)
}

/// Parts of a picture, smoothed one by one.
pub fn smoothed(
    picture: &Picture,
    filters: &Filters,
    parts: &[Region],
) -> Result<Vec<Picture>, Refusal> {
    let smooth = |part: &Region| filters.part(picture, *part);
    parts.iter().map(smooth).collect()
}

pub fn rectangles(picture: Region) -> Vec<Region> {
    let columns = cuts(picture.width, SIDES.0);
    let rows = cuts(picture.height, SIDES.1);
    let row = |&(top, height): &(u32, u32)| {
        let part = move |&(left, width): &(u32, u32)| Region {
            left: left as i32,
            top: top as i32,
            width,
            height,
        };
        columns.iter().map(part).collect::<Vec<_>>()
    };
    rows.iter().flat_map(row).collect()
}

/// Starts and lengths along a side.
fn cuts(side: u32, length: u32) -> Vec<(u32, u32)> {
    let starts = (0..side).step_by(length as usize);
    starts
        .map(|start| (start, length.min(side - start)))
        .collect()
}

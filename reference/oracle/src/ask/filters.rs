use alloc::collections::BTreeMap;
use core::marker::PhantomData;
use core::sync::atomic::{AtomicU64, Ordering::Relaxed};

use jxl_frame::data::LfGroup;
use jxl_frame::filter::{EpfParams, EpfSigma};
use standins::{AlignedGrid, HfMetadata, Tasks, block_on};

use super::{Edge, Frame, SigmaRows, Weights, sizes::header};
use crate::filter::{epf::apply_epf, gabor::apply_gabor_like, owned::FilterImage, rows};
use crate::{ImageBuffer, ImageWithRegion, Region};

/// Three planes, each row after row without gaps.
pub type Planes = [Vec<f32>; 3];

/// Block sigmas of a group, row after row.
#[derive(Debug, Clone)]
pub struct SigmaGrid {
    pub width: usize,
    pub height: usize,
    pub cells: Vec<f32>,
}

/// The regions of a filter, and its result: the whole image or the filter region alone.
#[derive(Debug, Clone, Copy)]
pub struct Place {
    pub image: Region,
    pub filter: Region,
    pub preserve_outside: bool,
}

/// Gabor-like passes over a filter region of one row so far.
static ONE_ROW: AtomicU64 = AtomicU64::new(0);

/// How many Gabor-like passes over a filter region of one row the original has run.
pub fn one_row_gabor_passes() -> u64 {
    ONE_ROW.load(Relaxed)
}

pub(crate) fn count_one_row(height: u32) {
    if height == 1 {
        ONE_ROW.fetch_add(1, Relaxed);
    }
}

/// `apply_gabor_like` on planes of the image region. The filter region must lie in it.
pub fn gabor(place: Place, weights: Weights, planes: Planes) -> Planes {
    count_one_row(place.filter.height);
    through(place, planes, |input| {
        block_on(apply_gabor_like(input, weights, &Tasks))
    })
}

/// `apply_epf` on planes of the image region. `grids` has the groups' grids in the frame's order, `None`
/// where a grid is missing. The filter region must lie in the image region, its left and top must be
/// multiples of 8 and not negative, and each block must be in its group's grid.
pub fn epf(
    place: Place,
    frame: Frame,
    grids: &[Option<SigmaGrid>],
    settings: Edge,
    planes: Planes,
) -> Planes {
    let groups = groups(grids);
    let frame = header(frame);
    let params = params(settings);
    through(place, planes, |input| {
        block_on(apply_epf(input, &groups, &frame, &params, &Tasks))
    })
}

/// `apply_gabor_like` and then `apply_epf` on one `FilterImage`, each if it has settings; at least one
/// must have them. The conditions of [`epf`] apply here too.
pub fn filters(
    place: Place,
    weights: Option<Weights>,
    edge: Option<(Edge, Frame, &[Option<SigmaGrid>])>,
    planes: Planes,
) -> Planes {
    through(place, planes, |mut input| {
        if let Some(weights) = weights {
            count_one_row(place.filter.height);
            input = block_on(apply_gabor_like(input, weights, &Tasks))?;
        }
        if let Some((settings, frame, grids)) = edge {
            let (frame, params) = (header(frame), params(settings));
            input = block_on(apply_epf(input, &groups(grids), &frame, &params, &Tasks))?;
        }
        Ok(input)
    })
}

fn groups(grids: &[Option<SigmaGrid>]) -> BTreeMap<u32, LfGroup<i32>> {
    (0..)
        .zip(grids)
        .map(|(index, grid)| (index, group(grid.clone())))
        .collect()
}

/// The sigma rows that `apply_epf` makes of the grids for a filter region, each with its row of
/// the image; the conditions of [`epf`] hold here too.
pub fn sigma_rows(
    filter: Region,
    frame: Frame,
    grids: &[Option<SigmaGrid>],
    settings: Edge,
) -> SigmaRows {
    let place = Place {
        image: filter,
        filter,
        preserve_outside: false,
    };
    let samples = filter.width as usize * filter.height as usize;
    let planes = core::array::from_fn(|_| vec![0.0; samples]);
    rows::sigma_rows_of(|| {
        epf(place, frame, grids, settings, planes);
    })
}

/// `epf_row` for one step over planes of the filter region, with one sigma per block. `width` is that of
/// the region, `top` its first row in the image.
pub fn epf_step(
    step: u32,
    settings: Edge,
    sigmas: &[f32],
    (width, top): (usize, usize),
    sources: [&[f32]; 3],
    targets: [&mut [f32]; 3],
) {
    let params = params(settings);
    rows::epf_planes(step, &params, sigmas, (width, top), sources, targets);
}

fn params(settings: Edge) -> EpfParams {
    EpfParams {
        iters: settings.iters,
        sharp_lut: settings.sharp_lut,
        channel_scale: settings.channel_scale,
        sigma: EpfSigma {
            quant_mul: settings.sigma.quant_mul,
            pass0_sigma_scale: settings.sigma.pass0_sigma_scale,
            pass2_sigma_scale: settings.sigma.pass2_sigma_scale,
            border_sad_mul: settings.sigma.border_sad_mul,
        },
        sigma_for_modular: settings.sigma_for_modular,
    }
}

fn group(grid: Option<SigmaGrid>) -> LfGroup<i32> {
    LfGroup {
        hf_meta: grid.map(|grid| HfMetadata {
            epf_sigma: AlignedGrid::from_cells(grid.width, grid.height, grid.cells),
        }),
        samples: PhantomData,
    }
}

/// Passes the planes to a filter and takes them back, by the original's own exchange of channels.
fn through(
    place: Place,
    planes: Planes,
    filter: impl FnOnce(FilterImage) -> crate::Result<FilterImage>,
) -> Planes {
    let (width, height) = (place.image.width as usize, place.image.height as usize);
    let mut image = ImageWithRegion::new(3, None);
    for plane in planes {
        let plane = AlignedGrid::from_cells(width, height, plane);
        image.append_channel(ImageBuffer::F32(plane), place.image);
    }
    let input = FilterImage::take_from(&mut image, place.filter, place.preserve_outside);
    filter(input)
        .and_then(|output| output.write_to(&mut image))
        .expect("inline tasks and plain grids do not fail");
    let mut planes = image.take_buffer().into_iter().map(|buffer| match buffer {
        ImageBuffer::F32(plane) => plane.into_cells(),
        _ => unreachable!("the filters leave f32 planes"),
    });
    core::array::from_fn(|_| planes.next().unwrap())
}

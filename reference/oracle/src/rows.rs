//! The original's row functions over the caller's planes: called with the same rows as by the original's
//! passes, but without their allocations. Our only module among the original's.

use core::cell::RefCell;

use jxl_frame::filter::EpfParams;

use super::{
    epf::{EpfRow, EpfRowHandler},
    gabor::GaborRow,
    impls::generic::{self, epf, gabor},
};
use crate::{ask::count_one_row, util};

/// Samples along a side of a block.
const BLOCK: usize = 8;

/// One plane of the Gabor-like filter.
pub fn gabor_plane(source: &[f32], target: &mut [f32], width: usize, weights: [f32; 2]) {
    let height = source.len() / width;
    count_one_row(height as u32);
    let row = |y: usize| &source[y * width..][..width];
    for (y, output_row) in target.chunks_exact_mut(width).enumerate() {
        if height == 1 {
            gabor::gabor_row_edge(row(0), None, output_row, weights);
        } else if y == 0 {
            gabor::gabor_row_edge(row(0), Some(row(1)), output_row, weights);
        } else if y == height - 1 {
            gabor::gabor_row_edge(row(y), Some(row(y - 1)), output_row, weights);
        } else {
            gabor::run_gabor_row_generic(GaborRow {
                input_rows: [row(y - 1), row(y), row(y + 1)],
                output_row,
                weights,
            });
        }
    }
}

/// One edge-preserving step over the planes of a filter region. `top` is its first row in the image.
pub fn epf_planes(
    step: u32,
    params: &EpfParams,
    sigmas: &[f32],
    (width, top): (usize, usize),
    sources: [&[f32]; 3],
    targets: [&mut [f32]; 3],
) {
    let height = sources[0].len() / width;
    let blocks = width.div_ceil(BLOCK);
    let [first, second, third] = targets.map(|target| target.chunks_exact_mut(width));
    for (y, ((first, second), third)) in first.zip(second).zip(third).enumerate() {
        let rows: [_; 7] = core::array::from_fn(|idx| {
            let y = util::mirror((y + idx) as isize - 3, height);
            y * width..(y + 1) * width
        });
        let row = EpfRow {
            input_rows: sources.map(|source| rows.clone().map(|row| &source[row])),
            merged_input_rows: None,
            output_rows: [first, second, third],
            width,
            y: top + y,
            sigma_row: &sigmas[y / BLOCK * blocks..][..blocks],
            epf_params: params,
            skip_inner: false,
        };
        match step {
            0 => epf::epf_row::<0>(row),
            1 => epf::epf_row::<1>(row),
            2 => epf::epf_row::<2>(row),
            _ => unreachable!("there are three steps"),
        }
    }
}

/// Rows of the image with the sigmas of their blocks.
pub type SigmaRows = Vec<(usize, Vec<f32>)>;

thread_local! {
    /// The sigmas that `apply_epf` passes to a row handler, while they are recorded.
    static SIGMA_ROWS: RefCell<Option<SigmaRows>> = const { RefCell::new(None) };
}

/// The sigma rows that a call of `apply_epf` passes to its row handler: those of rows with three rows
/// above and three below in the filter region.
pub fn sigma_rows_of(call: impl FnOnce()) -> SigmaRows {
    SIGMA_ROWS.set(Some(Vec::new()));
    call();
    SIGMA_ROWS.take().expect("handlers only add rows")
}

/// In place of the vector handlers: the generic one, or while sigmas are recorded one that records them
/// and filters nothing.
pub fn epf_row_handler<const STEP: usize>() -> Option<EpfRowHandler> {
    if SIGMA_ROWS.with_borrow(Option::is_some) {
        return Some(record_sigmas);
    }
    generic::epf_row_handler::<STEP>()
}

fn record_sigmas(row: EpfRow<'_, '_>) {
    SIGMA_ROWS.with_borrow_mut(|rows| {
        rows.get_or_insert_default()
            .push((row.y, row.sigma_row.to_vec()))
    });
}

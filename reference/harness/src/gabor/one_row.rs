//! Filter regions of one row. There the centre's weight is the standard's and not the original's
//! (docs/DIFFERENCES.md), so the Gabor-like pass is not compared with the original. It is compared with
//! Specification 10.2 to 10.4 in binary32, bit for bit, and with the standard's mirrored kernel in binary64,
//! up to the rounding error of [`bound`].

use std::sync::atomic::{AtomicU64, Ordering::Relaxed};

use restoration::{CHANNELS, GaborSettings, PLANES, Region};

use super::{PICTURES, Pass, any_picture, random_pass, weights};
use crate::{
    originals::{self, EdgeFilter},
    picture::plain,
    random::Random,
    report::{Amount, Report, Row},
};

const NAME: &str = "gabor one row";
/// The widest row.
const WIDTH: u32 = 300;
/// Kernels whose sum is smaller are not compared with binary64: for them the second-order errors could exceed
/// what [`bound`] allows for them.
const LEAST_SUM: f64 = 1.0 / (1 << 8) as f64;
/// Half the distance from 1 to the next binary32 number.
const HALF_ULP: f64 = 1.0 / (1 << 24) as f64;

/// Passes and runs over one row that were compared with the rule instead of the original, and how many of the
/// passes are cases of [`compare`].
static PASSES: AtomicU64 = AtomicU64::new(0);
static RUNS: AtomicU64 = AtomicU64::new(0);
static OWN: AtomicU64 = AtomicU64::new(0);

/// The expected planes of a Gabor-like pass: the original's, or for one row those of the rule.
pub fn expected_pass(
    place: oracle::Place,
    weights: oracle::Weights,
    planes: oracle::Planes,
) -> oracle::Planes {
    if place.filter.height == 1 {
        PASSES.fetch_add(1, Relaxed);
        part(&place, filtered_planes(&place, weights, planes))
    } else {
        oracle::gabor(place, weights, planes)
    }
}

/// The same for a run: for one row, the rule's Gabor-like pass and then the original's edge-preserving steps.
pub fn expected_run(
    place: oracle::Place,
    weights: Option<oracle::Weights>,
    edge: Option<EdgeFilter>,
    planes: oracle::Planes,
) -> oracle::Planes {
    match weights {
        Some(weights) if place.filter.height == 1 => {
            RUNS.fetch_add(1, Relaxed);
            let planes = filtered_planes(&place, weights, planes);
            if edge.is_some() {
                originals::filters(place, None, edge, planes)
            } else {
                part(&place, planes)
            }
        }
        _ => originals::filters(place, weights, edge, planes),
    }
}

/// Prints how many passes over one row were compared with the rule, and how many the original ran. Returns
/// whether the original ran none, as it must be.
pub fn original_ran_none() -> bool {
    let [passes, runs, own] = [&PASSES, &RUNS, &OWN].map(|count| count.load(Relaxed));
    let by_original = originals::one_row_gabor_passes();
    println!("Gabor-like passes over one row, compared with the rule of Specification 10.4:");
    println!(
        "  among the cases of other rows of the table: {} passes, {runs} runs",
        passes - own
    );
    println!("  cases of {NAME}: {own} passes; passes that the original ran: {by_original}");
    by_original == 0
}

/// The planes of the image after filtering the filter region's only row.
fn filtered_planes(
    place: &oracle::Place,
    weights: oracle::Weights,
    mut planes: oracle::Planes,
) -> oracle::Planes {
    let width = place.filter.width as usize;
    let start = start(place);
    for (plane, weights) in planes.iter_mut().zip(weights) {
        let row = &mut plane[start..start + width];
        row.copy_from_slice(&filtered(row, weights));
    }
    planes
}

/// The index of the filter region's first sample in a plane of the image.
fn start(place: &oracle::Place) -> usize {
    let left = place.filter.left.abs_diff(place.image.left) as usize;
    let top = place.filter.top.abs_diff(place.image.top) as usize;
    top * place.image.width as usize + left
}

/// The part of the image's planes that is the result.
fn part(place: &oracle::Place, planes: oracle::Planes) -> oracle::Planes {
    if place.preserve_outside {
        return planes;
    }
    let (start, width) = (start(place), place.filter.width as usize);
    planes.map(|plane| plane[start..start + width].to_vec())
}

/// Specification 10.2 to 10.4 for a single row, each operation rounded to binary32.
fn filtered(row: &[f32], [w0, w1]: [f32; 2]) -> Vec<f32> {
    let &[first, .., last] = row else {
        return row.to_vec();
    };
    let g = 1.0 / (1.0 + w0 * 4.0 + w1 * 4.0);
    let (centre, side) = (1.0 + 2.0 * w0, w0 + 2.0 * w1);
    let end = |c: f32, h: f32| (c * (centre + side) + h * side) * g;
    let inner = |w: &[f32]| (w[1] * centre + (w[0] + w[2]) * side) * g;
    let mut samples = vec![end(first, row[1])];
    samples.extend(row.windows(3).map(inner));
    samples.push(end(last, row[row.len() - 2]));
    samples
}

/// The standard's rule on real numbers: a 3 × 3 kernel with mirrored neighbours, divided by its sum.
fn mirrored(row: &[f32], weights: [f32; 2]) -> Vec<f64> {
    let mirror = |at: isize, len: usize| at.clamp(0, len as isize - 1) as usize;
    let weight = |dx: isize, dy: isize| match dx.abs() + dy.abs() {
        0 => 1.0,
        n => f64::from(weights[n as usize - 1]),
    };
    let sum = kernel_sum(weights);
    let sample = |x: usize| {
        let mut total = 0.0;
        for dy in -1..=1 {
            assert_eq!(mirror(dy, 1), 0, "the rows above and below are this one");
            for dx in -1..=1 {
                total += weight(dx, dy) * f64::from(row[mirror(x as isize + dx, row.len())]);
            }
        }
        total / sum
    };
    (0..row.len()).map(sample).collect()
}

fn kernel_sum([w0, w1]: [f32; 2]) -> f64 {
    1.0 + 4.0 * f64::from(w0) + 4.0 * f64::from(w1)
}

/// How far a binary32 result may be from the kernel's. With A the sum of the weights' absolute values, D the
/// kernel's sum and M the largest absolute sample, in units of half an ulp of A M / |D|: 4 for the roundings of
/// the weighted sum, at most 2 A / |D| for those of the divisor, 1 each for the reciprocal and the product, and
/// 2 for second-order errors.
fn bound(row: &[f32], weights: [f32; 2]) -> f64 {
    let size = 1.0 + 4.0 * weights.iter().map(|w| f64::from(w.abs())).sum::<f64>();
    let largest = row.iter().fold(0.0, |m: f64, s| m.max(f64::from(s.abs())));
    let ratio = size / kernel_sum(weights).abs();
    (8.0 + 2.0 * ratio) * ratio * largest * HALF_ULP
}

/// Compares one row in an image of any height with the rule, band by band, and whole pictures of one row with
/// the kernel.
pub fn compare(amount: Amount, random: &mut Random, report: &mut Report) {
    let mut row = Row::new(NAME, "rule in f32");
    while row.draws(PICTURES, amount) {
        let (pass, band) = random_pass(PLANES, random);
        any_picture(&one_row_of(pass), band, random, &mut row);
        OWN.fetch_add(1, Relaxed);
    }
    report.add(row);
    let mut row = Row::new(NAME, "kernel in f64");
    while row.draws(PICTURES, amount) {
        compare_with_kernel(random, &mut row);
    }
    report.add(row);
}

fn one_row_of(mut pass: Pass) -> Pass {
    pass.place.filter.height = 1;
    pass
}

/// Compares a whole picture of one row, with plain samples and weights, with the kernel.
fn compare_with_kernel(random: &mut Random, row: &mut Row) {
    let width = random.within(1, WIDTH.into()) as u32;
    let image = Region::with_size(width, 1);
    let weights = core::array::from_fn(|_| plain_weights(random));
    let source: Vec<f32> = (0..CHANNELS * width as usize)
        .map(|_| plain(random))
        .collect();
    let mut target = vec![0.0; source.len()];
    let settings = GaborSettings::with_weights(weights);
    let number = restoration::gabor_pass(
        image, image, PLANES, 1, settings, 0, 1, &source, &mut target,
    );
    row.count(0);
    if number != 0 {
        row.differs(&(image, weights), &number, &0);
    }
    let planes = source
        .chunks(width as usize)
        .zip(target.chunks(width as usize));
    for ((source, target), weights) in planes.zip(weights) {
        if let Some(at) = beyond(source, target, weights) {
            let kernel = mirrored(source, weights)[at];
            row.differs(&(weights, source, at), &target[at], &kernel);
        }
    }
}

/// The first sample that is farther from the kernel's than the bound.
fn beyond(source: &[f32], target: &[f32], weights: [f32; 2]) -> Option<usize> {
    let bound = bound(source, weights);
    let kernel = mirrored(source, weights);
    // False for a NaN.
    let close = |at: usize| (f64::from(target[at]) - kernel[at]).abs() <= bound;
    (0..target.len()).find(|&at| !close(at))
}

/// Weights between -1 and 1 whose kernel sum is not close to 0.
fn plain_weights(random: &mut Random) -> [f32; 2] {
    loop {
        let [pair, ..] = weights(random);
        if pair.iter().all(|w| w.abs() <= 1.0) && kernel_sum(pair).abs() >= LEAST_SUM {
            return pair;
        }
    }
}

#[cfg(test)]
mod tests {
    use super::*;

    const WEIGHTS: [f32; 2] = [0.5, 0.25];
    const ROW: [f32; 3] = [0.0, 16.0, 0.0];

    /// Specification 14.7.
    #[test]
    fn rule_and_kernel_give_the_instance() {
        assert_eq!(filtered(&ROW, WEIGHTS), [4.0, 8.0, 4.0]);
        assert_eq!(mirrored(&ROW, WEIGHTS), [4.0, 8.0, 4.0]);
    }

    #[test]
    fn the_originals_row_is_beyond_the_bound() {
        let row = oracle::Region::with_size(3, 1);
        let place = oracle::Place {
            image: row,
            filter: row,
            preserve_outside: true,
        };
        let planes = core::array::from_fn(|_| ROW.to_vec());
        let [plane, ..] = oracle::gabor(place, [WEIGHTS; CHANNELS], planes);
        assert_eq!(beyond(&ROW, &plane, WEIGHTS), Some(1));
        assert_eq!(beyond(&ROW, &filtered(&ROW, WEIGHTS), WEIGHTS), None);
        assert!(oracle::one_row_gabor_passes() > 0);
    }

    /// Runs with a Gabor-like pass are counted too.
    #[test]
    fn runs_of_one_row_are_counted() {
        let place = |height| {
            let image = oracle::Region::with_size(3, height);
            oracle::Place {
                image,
                filter: image,
                preserve_outside: true,
            }
        };
        let before = oracle::one_row_gabor_passes();
        let planes = |height: usize| core::array::from_fn(|_| vec![1.0; 3 * height]);
        oracle::filters(place(1), Some([WEIGHTS; CHANNELS]), None, planes(1));
        assert!(oracle::one_row_gabor_passes() > before);
    }

    #[test]
    fn a_sample_alone_is_copied() {
        assert_eq!(filtered(&[5.0], WEIGHTS), [5.0]);
    }
}

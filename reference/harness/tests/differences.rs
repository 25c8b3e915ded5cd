//! The rows of docs/DIFFERENCES.md: the smallest input of each, with the original's answer, if it has one,
//! and the proved library's.

use std::panic::{AssertUnwindSafe, catch_unwind};

use oracle::Place;
use restoration::{
    BLOCK, Blocks, CHANNELS, Encoding, EpfSettings, EpfStep, Frame, GaborSettings, PLANES, Region,
    Settings, Setup,
};

/// 2^-24.
const TINY: f32 = 1.0 / (1 << 24) as f32;
const DEFAULT_WEIGHTS: [f32; 2] = GaborSettings::DEFAULT.weights[0];

/// The number of the edge filter's reader, `sigma_for_modular` and the next bit position.
fn read_epf(bytes: &[u8], encoding: Encoding) -> (u32, f32, usize) {
    let answer = restoration::read_epf(bytes, 0, encoding);
    (answer.number, answer.epf.sigma_for_modular, answer.next)
}

fn at(left: i32, top: i32, width: u32, height: u32) -> Region {
    Region {
        left,
        top,
        width,
        height,
    }
}

fn sized(width: u32, height: u32) -> Region {
    Region::with_size(width, height)
}

fn original(r: Region) -> oracle::Region {
    oracle::Region {
        left: r.left,
        top: r.top,
        width: r.width,
        height: r.height,
    }
}

fn place(image: Region, filter: Region, preserve_outside: bool) -> Place {
    Place {
        image: original(image),
        filter: original(filter),
        preserve_outside,
    }
}

/// The same plane three times.
fn three(plane: &[f32]) -> oracle::Planes {
    core::array::from_fn(|_| plane.to_vec())
}

fn panics<T>(call: impl FnOnce() -> T) -> bool {
    catch_unwind(AssertUnwindSafe(call)).is_err()
}

fn gabor(weights: [f32; 2]) -> GaborSettings {
    GaborSettings::with_weights([weights; CHANNELS])
}

/// The number of a Gabor-like pass over rows of the whole image, with sets of this many samples.
fn gabor_number(image: Region, filter: Region, (from, to): (u32, u32), samples: usize) -> u32 {
    let (source, mut target) = (vec![0.0; samples], vec![0.0; samples]);
    let settings = gabor(DEFAULT_WEIGHTS);
    restoration::gabor_pass(
        image, filter, PLANES, 1, settings, from, to, &source, &mut target,
    )
}

/// The first plane of a Gabor-like pass over a whole picture, by the original and by the library.
fn gabor_planes(width: u32, weights: [f32; 2], plane: &[f32]) -> [Vec<f32>; 2] {
    let height = plane.len() as u32 / width;
    let image = sized(width, height);
    let original = oracle::gabor(place(image, image, true), [weights; CHANNELS], three(plane));
    let mut ours = [plane; CHANNELS].concat();
    let source = ours.clone();
    let settings = gabor(weights);
    let number = restoration::gabor_pass(
        image, image, PLANES, 1, settings, 0, height, &source, &mut ours,
    );
    assert_eq!(number, 0);
    ours.truncate(plane.len());
    let [first, ..] = original;
    [first, ours]
}

/// The original's settings with a scale of 1 for the first channel alone, and multipliers of 1.
fn plain_edge(iters: u32) -> oracle::Edge {
    oracle::Edge {
        iters,
        sharp_lut: [0.0; 8],
        channel_scale: [1.0, 0.0, 0.0],
        sigma: oracle::Sigma {
            quant_mul: 1.0,
            pass0_sigma_scale: 1.0,
            pass2_sigma_scale: 1.0,
            border_sad_mul: 1.0,
        },
        sigma_for_modular: 1.0,
    }
}

fn plain_step(step: u32) -> EpfStep {
    EpfStep {
        step,
        channel_scale: [1.0, 0.0, 0.0],
        multiplier: 1.0,
        border_sad_mul: 1.0,
        ..EpfStep::DEFAULT
    }
}

fn step_number(filter: Region, step: u32) -> u32 {
    let samples = CHANNELS * (filter.width * filter.height) as usize;
    let (source, mut target) = (vec![0.0; samples], vec![0.0; samples]);
    let settings = plain_step(step);
    restoration::epf_pass(
        filter,
        filter,
        PLANES,
        1,
        settings,
        &[1.0],
        0,
        1,
        &source,
        &mut target,
    )
}

const SMALL: oracle::Frame = oracle::Frame {
    width: BLOCK,
    height: BLOCK,
    upsampling: 1,
    lf_level: 0,
    group_size_shift: 0,
};

fn frame(f: oracle::Frame) -> Frame {
    Frame {
        width: f.width,
        height: f.height,
        upsampling: f.upsampling,
        lf_level: f.lf_level,
        group_size_shift: f.group_size_shift,
    }
}

fn grid(width: usize, height: usize, cells: &[f32]) -> Option<oracle::SigmaGrid> {
    let cells = cells.to_vec();
    Some(oracle::SigmaGrid {
        width,
        height,
        cells,
    })
}

fn block_count(filter: Region) -> usize {
    (filter.width.div_ceil(BLOCK) * filter.height.div_ceil(BLOCK)) as usize
}

/// The number of the block sigmas of a filter region on blocks, with the edge filter on.
fn sigmas_number(f: oracle::Frame, filter: Region, table: &[u32], grids: &[f32]) -> u32 {
    let blocks = Blocks {
        left: filter.left as u32 / BLOCK,
        top: filter.top as u32 / BLOCK,
        width: filter.width,
        height: filter.height,
    };
    let mut sigmas = vec![0.0; block_count(filter)];
    restoration::block_sigmas(1, frame(f), blocks, table, grids, 1.0, &mut sigmas)
}

fn setup(image: Region, filter: Region, iterations: u32, band_height: u32) -> Setup {
    let epf = EpfSettings {
        iters: iterations,
        ..EpfSettings::DEFAULT
    };
    Setup {
        filter,
        settings: Settings {
            epf,
            ..Settings::OFF
        },
        band_height,
        ..Setup::whole(image)
    }
}

/// Start on a picture of zeros, with room for block sigmas if there are iterations.
fn start(setup: Setup, table: &[u32]) -> restoration::RunAnswer {
    let samples = CHANNELS * (setup.image.width * setup.image.height) as usize;
    let (mut first, second) = (vec![0.0; samples], vec![0.0; samples]);
    let on = usize::from(setup.settings.epf.iters > 0);
    let mut sigmas = vec![0.0; on * block_count(setup.filter)];
    restoration::start(
        setup,
        frame(SMALL),
        table,
        &[],
        &mut first,
        &second,
        &mut sigmas,
    )
}

#[test]
fn regions_outside_the_measures() {
    let long = sized(16_385, 1);
    assert!(!original(long).is_empty());
    assert_eq!(restoration::region_is_empty(long).number, 4);
    let far = at(1_048_576, 0, 1, 1);
    assert_eq!(original(far).translate(1, 0).left, 1_048_577);
    assert_eq!(restoration::region_translate(far, 1, 0).number, 4);
    // A column of two samples is filtered in an image that is too large here.
    let (image, column) = (sized(16_384, 1_025), sized(1, 2));
    let mut plane = vec![0.0; 16_384 * 1_025];
    plane[16_384] = 16.0;
    let [first, ..] = oracle::gabor(place(image, column, true), [[0.5, 0.25]; 3], three(&plane));
    assert_eq!(first[0], 4.0);
    assert_eq!(gabor_number(image, column, (0, 1), 0), 4);
}

#[test]
fn shrink_factor_and_alignment() {
    let one = sized(1, 1);
    assert_eq!(original(one).downsample(17), original(one));
    assert_eq!(restoration::region_downsample(one, 17).number, 9);
    // 3 - 1 = 2 is masked: width 1 + 2 becomes 1, no multiple of 3.
    if cfg!(debug_assertions) {
        assert!(panics(|| oracle::container_aligned(original(one), 3)));
    } else {
        assert_eq!(oracle::container_aligned(original(one), 3), original(one));
    }
    assert_eq!(restoration::region_container_aligned(one, 3).number, 9);
}

#[test]
fn mirror_lengths_and_offsets() {
    // The original never returns for length 0.
    assert_eq!(restoration::mirror(0, 0).number, 9);
    assert_eq!(oracle::mirror(1_048_577, 1), 0);
    assert_eq!(restoration::mirror(1_048_577, 1).number, 9);
    assert_eq!(oracle::mirror(0, 16_385), 0);
    assert_eq!(restoration::mirror(0, 16_385).number, 9);
}

#[test]
fn frame_settings() {
    let frame = oracle::Frame {
        upsampling: 3,
        ..SMALL
    };
    assert_eq!(oracle::group_sizes(frame).sample_width, 3);
    assert_eq!(restoration::group_sizes(self::frame(frame)).number, 9);
}

#[test]
fn long_header() {
    let bytes = vec![0; 65_537];
    assert_eq!(oracle::parse_gabor(&bytes, 0), Ok((None, 1)));
    assert_eq!(restoration::read_gabor(&bytes, 0).number, 7);
}

#[test]
fn filter_regions() {
    let image = sized(1, 1);
    let weights = [DEFAULT_WEIGHTS; 3];
    let empty = place(image, sized(0, 0), true);
    assert_eq!(oracle::gabor(empty, weights, three(&[7.0])), three(&[7.0]));
    let far = place(image, at(2, 0, 0, 1), false);
    assert!(panics(|| oracle::gabor(far, weights, three(&[7.0]))));
    assert_eq!(gabor_number(image, sized(0, 0), (0, 1), 3), 4);
    let beside = at(1, 0, 1, 1);
    let outside = place(image, beside, true);
    assert!(panics(|| oracle::gabor(outside, weights, three(&[7.0]))));
    assert_eq!(gabor_number(image, beside, (0, 1), 3), 5);
    let whole = place(image, image, true);
    assert!(panics(|| oracle::gabor(whole, weights, three(&[7.0, 7.0]))));
    assert_eq!(gabor_number(image, image, (0, 1), 2), 7);
    assert_eq!(gabor_number(image, image, (1, 0), 3), 9);
    // An empty range of rows is accepted.
    assert_eq!(gabor_number(image, image, (1, 1), 3), 0);
}

#[test]
fn edge_filter_off_blocks_and_steps() {
    let off = at(1, 0, 1, 1);
    let grids = [grid(1, 1, &[1.0])];
    let plane = three(&[7.0]);
    assert!(panics(|| oracle::epf(
        place(off, off, true),
        SMALL,
        &grids,
        plain_edge(1),
        plane
    )));
    assert_eq!(step_number(off, 0), 6);
    assert_eq!(step_number(sized(1, 1), 3), 9);
}

/// The first plane of `0 1/4` through step 1 with this multiplier.
fn step_1_scaled(multiplier: f32) -> Vec<f32> {
    let settings = EpfStep {
        multiplier,
        ..plain_step(1)
    };
    first_after(settings, sized(2, 1), &three(&[0.0, 0.25]))
}

/// The first plane of an image of one block, with sigma 2, after a step over all of it.
fn first_after(settings: EpfStep, image: Region, planes: &oracle::Planes) -> Vec<f32> {
    let (source, rows) = (planes.concat(), image.height);
    let mut target = source.clone();
    let number = restoration::epf_pass(
        image,
        image,
        PLANES,
        1,
        settings,
        &[2.0],
        0,
        rows,
        &source,
        &mut target,
    );
    assert_eq!(number, 0);
    target.truncate(planes[0].len());
    target
}

#[test]
fn scale_of_step_1() {
    assert_eq!(step_1_scaled(1.0), apply_epf(1));
    assert_ne!(step_1_scaled(2.0), apply_epf(1));
}

/// The first plane of 2 by 1 samples through `apply_epf`.
fn apply_epf(iterations: u32) -> Vec<f32> {
    let image = sized(2, 1);
    let grids = [grid(1, 1, &[2.0])];
    let planes = three(&[0.0, 0.25]);
    let [first, ..] = oracle::epf(
        place(image, image, true),
        SMALL,
        &grids,
        plain_edge(iterations),
        planes,
    );
    first
}

#[test]
fn iterations() {
    assert_eq!(apply_epf(4), apply_epf(2));
    assert_ne!(apply_epf(4), apply_epf(3));
    assert_eq!(apply_epf(0), apply_epf(1));
    let image = sized(2, 1);
    assert_eq!(start(setup(image, image, 4, 1), &[0; 3]).number, 9);
    // Finished from the start: no pass runs.
    let answer = start(setup(image, image, 0, 1), &[0; 3]);
    assert_eq!(answer.number, 0);
    assert_eq!(restoration::advance(answer.run).number, 11);
}

#[test]
fn table_of_an_edge_filter_that_is_off() {
    let image = sized(2, 1);
    assert_eq!(start(setup(image, image, 0, 1), &[0; 4]).number, 7);
    assert_eq!(start(setup(image, image, 0, 1), &[2, 0, 0]).number, 9);
}

#[test]
fn grids_and_groups() {
    let one = sized(8, 8);
    // Sides.
    let wide = [grid(1_025, 1, &[1.0; 1_025])];
    let shown = oracle::sigma_rows(original(one), SMALL, &wide, plain_edge(1));
    assert_eq!(shown[0].1, [1.0]);
    assert_eq!(sigmas_number(SMALL, one, &[1, 1_025, 1], &[1.0; 1_025]), 4);
    // Groups per row.
    let tall = oracle::Frame {
        height: 1_032,
        ..SMALL
    };
    let past = at(1_024, 0, 8, 8);
    let grids = [grid(1, 1, &[1.0]), grid(1, 1, &[2.0])];
    let shown = oracle::sigma_rows(original(past), tall, &grids, plain_edge(1));
    assert_eq!(shown[0].1, [2.0]);
    let table = [1, 1, 1, 1, 1, 1];
    assert_eq!(sigmas_number(tall, past, &table, &[1.0, 2.0]), 8);
    // Groups per column.
    let below = at(0, 1_024, 8, 8);
    let grids = [grid(1, 1, &[1.0])];
    let edge = plain_edge(1);
    let rows = || oracle::sigma_rows(original(below), SMALL, &grids, edge);
    assert!(panics(rows));
    assert_eq!(sigmas_number(SMALL, below, &[1, 1, 1], &[1.0]), 8);
    // A grid that lacks a block of the filter region.
    let two = sized(16, 8);
    let grids = [grid(1, 2, &[1.0, 2.0])];
    let shown = oracle::sigma_rows(original(two), SMALL, &grids, edge);
    assert_eq!(shown[0].1, [1.0, 2.0]);
    assert_eq!(sigmas_number(SMALL, two, &[1, 1, 2], &[1.0, 2.0]), 8);
    // Lengths and presences.
    assert_eq!(sigmas_number(SMALL, one, &[1, 1, 1, 1], &[1.0]), 7);
    assert_eq!(sigmas_number(SMALL, one, &[2, 1, 1], &[]), 9);
}

/// A frame of two groups, one above the other, of which the second has no grid; the filter region has the last
/// block row of the first group and the only one of the second. The original repeats row 127's sigma.
#[test]
fn a_group_without_sigmas() {
    let tall = oracle::Frame {
        height: 1_032,
        ..SMALL
    };
    let filter = at(0, 1_016, 8, 16);
    let mut cells = [2.0; 128];
    cells[127] = 3.0;
    let grids = [grid(1, 128, &cells), None];
    let shown = oracle::sigma_rows(original(filter), tall, &grids, plain_edge(1));
    assert!(shown.iter().any(|(y, _)| *y >= 1_024));
    assert!(shown.iter().all(|(_, sigmas)| *sigmas == [3.0]));
    // Where the filter region starts below row 127 the same block has `sigma_for_modular`.
    let below = original(at(0, 1_024, 8, 8));
    let shown = oracle::sigma_rows(below, tall, &grids, plain_edge(1));
    assert_eq!(shown[0].1, [1.0]);
    let blocks = Blocks {
        left: 0,
        top: 127,
        width: 8,
        height: 16,
    };
    let (table, mut sigmas) = ([1, 1, 128, 0, 0, 0], [0.0; 2]);
    let number =
        restoration::block_sigmas(1, frame(tall), blocks, &table, &cells, 1.0, &mut sigmas);
    assert_eq!((number, sigmas), (0, [3.0, 1.0]));
}

/// Where the original has a bool, the library has a number: 0, 1, or 9 for another.
#[test]
fn flags_that_are_neither_0_nor_1() {
    let image = sized(1, 1);
    let mut target = [0.0; 3];
    let weights = gabor(DEFAULT_WEIGHTS);
    for (preserve_outside, number) in [(0, 0), (1, 0), (2, 9)] {
        let given = restoration::gabor_pass(
            image,
            image,
            PLANES,
            preserve_outside,
            weights,
            0,
            1,
            &[0.0; 3],
            &mut target,
        );
        assert_eq!(given, number);
    }
}

/// The original always has three planes.
#[test]
fn one_plane_and_other_numbers() {
    let image = sized(3, 1);
    let [side, diagonal] = [0.5, 0.25];
    let unread = [f32::NAN; 2];
    let settings = GaborSettings::with_weights([[side, diagonal], unread, unread]);
    let source = [0.0, 16.0, 0.0];
    for (planes, number, expected) in [(1, 0, [4.0, 8.0, 4.0]), (2, 9, source), (3, 7, source)] {
        let mut target = source;
        let given = restoration::gabor_pass(
            image, image, planes, 1, settings, 0, 1, &source, &mut target,
        );
        assert_eq!((given, target), (number, expected));
    }
}

#[test]
fn band_height_and_count() {
    let image = sized(1, 257);
    for (band_height, number) in [(0, 9), (16_385, 9), (1, 9), (2, 0)] {
        let setup = setup(image, image, 0, band_height);
        assert_eq!(start(setup, &[0; 3]).number, number);
    }
}

#[test]
fn a_run_without_passes() {
    let (image, filter) = (sized(2, 1), sized(1, 1));
    let original = oracle::filters(place(image, filter, false), None, None, three(&[7.0, 8.0]));
    assert_eq!(original, three(&[7.0, 8.0]));
    let answer = start(setup(image, filter, 0, 1), &[0; 3]);
    assert_eq!(answer.number, 0);
    let planes = [7.0, 8.0, 7.0, 8.0, 7.0, 8.0];
    let mut out = [0.0; 3];
    let number = restoration::result(answer.run, &planes, &[0.0; 6], &mut out);
    assert_eq!((number, out), (0, [7.0; 3]));
    let number = restoration::result(answer.run, &planes, &[0.0; 6], &mut [0.0; 6]);
    assert_eq!(number, 7);
}

#[test]
fn gabor_on_one_row() {
    let [original, ours] = gabor_planes(3, [0.5, 0.25], &[0.0, 16.0, 0.0]);
    assert_eq!(original, [4.0, 14.0, 4.0]);
    assert_eq!(ours, [4.0, 8.0, 4.0]);
}

#[test]
fn gabor_mirrors_at_the_filter_region() {
    let (image, filter) = (sized(1, 2), sized(1, 1));
    let weights = [[0.5, 0.25]; 3];
    let plane = [0.0, 16.0];
    let [part, ..] = oracle::gabor(place(image, filter, true), weights, three(&plane));
    assert_eq!(part, plane);
    // Filtered as a whole picture the first sample would be 16 × (1/2 + 2 × 1/4) / 4.
    let [whole, ..] = oracle::gabor(place(image, image, true), weights, three(&plane));
    assert_eq!(whole[0], 4.0);
    let source = [plane; CHANNELS].concat();
    let mut target = [1.0; 6];
    let settings = gabor([0.5, 0.25]);
    let number = restoration::gabor_pass(
        image, filter, PLANES, 1, settings, 0, 2, &source, &mut target,
    );
    assert_eq!((number, &target[..]), (0, &source[..]));
}

/// The mirrored kernel on a column of two, summed as for an inner sample, times the reciprocal.
fn mirrored_column([w0, w1]: [f32; 2], [c, u]: [f32; 2]) -> f32 {
    let side = c + c + c + u;
    let diagonal = c + c + u + u;
    let reciprocal = (1.0 + w0 * 4.0 + w1 * 4.0).recip();
    (c + side * w0 + diagonal * w1) * reciprocal
}

#[test]
fn gabor_order_of_sums() {
    let column = [0.093_859_58, 0.028_347_48];
    for plane in gabor_planes(1, DEFAULT_WEIGHTS, &column) {
        assert_eq!(plane[0].to_bits(), 0x3DAD_878B);
    }
    let inner = mirrored_column(DEFAULT_WEIGHTS, column);
    assert_eq!(inner.to_bits(), 0x3DAD_878C);
}

#[test]
fn gabor_divides_by_a_reciprocal() {
    // 5/2 / 3; sum and divisor are exact.
    for plane in gabor_planes(1, [0.5, 0.0], &[0.0, 5.0]) {
        assert_eq!(plane[0].to_bits(), 0x3F55_5556);
    }
    assert_eq!((2.5f32 / 3.0).to_bits(), 0x3F55_5555);
}

/// Every finite half, ascending.
fn halves() -> Vec<f32> {
    let half = |bits: u16| {
        let (value, _) = oracle::read_half(&bits.to_le_bytes(), 0).ok()?;
        Some(value)
    };
    let mut all: Vec<f32> = (0..=0xFFFF).filter_map(half).collect();
    all.sort_by(f32::total_cmp);
    all
}

/// A channel's unnormalized sum, computed as in the original.
fn kernel_sum(w0: f32, w1: f32) -> f32 {
    (1.0 + (w0 + w1) * 4.0).abs()
}

/// The sum ascends with the second weight, so the pairs below a limit lie side by side around 0.
#[test]
fn near_zero_kernels_are_zero() {
    let halves = halves();
    assert_eq!(halves.len(), 63_488);
    let (mut refused, mut next) = (0, f32::MAX);
    for &w0 in &halves {
        let middle = halves.partition_point(|&w1| 1.0 + (w0 + w1) * 4.0 < 0.0);
        let sums = |&w1: &f32| kernel_sum(w0, w1);
        let mut below = halves[..middle].iter().rev().map(sums).peekable();
        let mut above = halves[middle..].iter().map(sums).peekable();
        while let Some(sum) = below.next_if(|&sum| sum < f32::EPSILON) {
            refused += 1;
            assert_eq!(sum, 0.0);
        }
        while let Some(sum) = above.next_if(|&sum| sum < f32::EPSILON) {
            refused += 1;
            assert_eq!(sum, 0.0);
        }
        next = below
            .next()
            .into_iter()
            .chain(above.next())
            .fold(next, f32::min);
    }
    assert_eq!((refused, next), (24_579, 4.0 * TINY));
    assert_eq!(kernel_sum(-0.25, TINY), next);
}

#[test]
fn near_zero_kernel_is_refused() {
    // The filter on, custom weights, six halves of -1/8.
    let mut bits: u128 = 0b11;
    for half in 0..6 {
        bits |= 0xB000 << (2 + 16 * half);
    }
    let bytes = bits.to_le_bytes();
    let original = oracle::parse_gabor(&bytes, 0);
    assert!(matches!(original, Err(oracle::Error::ValidationFailed(_))));
    assert_eq!(restoration::read_gabor(&bytes, 0).number, 3);
}

#[test]
fn small_sigma_for_modular() {
    let bytes = [0x01, 0, 0];
    let (edge, next) = oracle::parse_epf(&bytes, 0, true).unwrap();
    assert_eq!((edge.unwrap().sigma_for_modular, next), (0.0, 20));
    assert_eq!(read_epf(&bytes, Encoding::Modular), (0, 0.0, 20));
}

#[test]
fn ignored_fields_may_be_any_bits() {
    // One iteration, no sharpness, custom scales: three halves of 0, then the two fields, infinite.
    let bits: u128 = 0b1001 | 0x7C00 << (4 + 48) | 0x7C00 << (4 + 64);
    let bytes = bits.to_le_bytes();
    assert!(oracle::read_half(&bytes, 4 + 48).is_err());
    let (edge, next) = oracle::parse_epf(&bytes, 0, false).unwrap();
    assert_eq!((edge.unwrap().channel_scale, next), ([0.0; 3], 85));
    assert_eq!(read_epf(&bytes, Encoding::VarDct), (0, 1.0, 85));
}

/// Step 1 at the first sample of 0 0 / 2^-24 1 with sigma 2, with the five differences summed in this
/// order.
fn first_of_four(order: [(isize, isize); 5]) -> f32 {
    let plane = [0.0, 0.0, TINY, 1.0];
    let sample = |(x, y): (isize, isize)| plane[2 * oracle::mirror(y, 2) + oracle::mirror(x, 2)];
    let slope = 6.6 * (f32::from_bits(0x3F35_04F3) - 1.0) / 2.0;
    let (mut sum, mut weights) = (sample((0, 0)), 1.0);
    for (x, y) in [(0, -1), (0, 1), (-1, 0), (1, 0)] {
        let mut distance = 0.0;
        for (dx, dy) in order {
            distance += (sample((dx, dy)) - sample((x + dx, y + dy))).abs();
        }
        let weight = (1.0 + distance * slope).max(0.0);
        sum += weight * sample((x, y));
        weights += weight;
    }
    sum / weights
}

#[test]
fn step_order_of_sums() {
    let planes = [vec![0.0, 0.0, TINY, 1.0], vec![0.0; 4], vec![0.0; 4]];
    let mut original = planes.clone();
    oracle::epf_step(
        1,
        plain_edge(1),
        &[2.0],
        (2, 0),
        planes.each_ref().map(Vec::as_slice),
        original.each_mut().map(Vec::as_mut_slice),
    );
    assert_eq!(original[0][0].to_bits(), 0x3032_B54E);
    let ours = first_after(plain_step(1), sized(2, 2), &planes);
    assert_eq!(ours[0].to_bits(), 0x3032_B54E);
    let own = first_of_four([(0, -1), (0, 0), (0, 1), (-1, 0), (1, 0)]);
    assert_eq!(own.to_bits(), 0x3032_B54E);
    let step_0 = first_of_four([(0, -1), (1, 0), (0, 0), (-1, 0), (0, 1)]);
    assert_eq!(step_0.to_bits(), 0x3032_B578);
}

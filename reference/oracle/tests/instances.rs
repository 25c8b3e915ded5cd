//! The Specification's instances on the original, to see that it is compiled and called as it should be.

use oracle::*;

fn place(width: u32, height: u32) -> Place {
    let whole = Region::with_size(width, height);
    Place {
        image: whole,
        filter: whole,
        preserve_outside: true,
    }
}

#[test]
fn mirror_places() {
    let places = [(-1, 1, 0), (-3, 2, 1), (5, 4, 2), (7, 3, 1)];
    for (offset, len, at) in places {
        assert_eq!(mirror(offset, len), at);
    }
}

#[test]
fn regions() {
    let row = Region {
        left: -3,
        top: 0,
        width: 5,
        height: 1,
    };
    let smaller = row.downsample(1);
    assert_eq!((smaller.left, smaller.width), (-2, 3));
    let aligned = container_aligned(row, 8);
    assert_eq!((aligned.left, aligned.width), (-8, 16));
}

#[test]
fn gabor_impulse() {
    let weights = [[0.5, 0.25]; 3];
    let impulse = vec![0.0, 0.0, 0.0, 0.0, 16.0, 0.0, 0.0, 0.0, 0.0];
    let spread = vec![1.0, 2.0, 1.0, 2.0, 4.0, 2.0, 1.0, 2.0, 1.0];
    let planes = gabor(
        place(3, 3),
        weights,
        [impulse.clone(), impulse.clone(), impulse],
    );
    assert_eq!(planes, [spread.clone(), spread.clone(), spread]);
}

/// Where the original is not Specification 14.7, which has 4 8 4 (docs/DIFFERENCES.md).
#[test]
fn the_originals_own_single_row() {
    let row = vec![0.0, 16.0, 0.0];
    let spread = vec![4.0, 14.0, 4.0];
    let weights = [[0.5, 0.25]; 3];
    let planes = gabor(place(3, 1), weights, [row.clone(), row.clone(), row]);
    assert_eq!(planes, [spread.clone(), spread.clone(), spread]);
}

#[test]
fn outside_of_the_filter_region() {
    let inner = Region {
        left: 1,
        top: 1,
        width: 1,
        height: 1,
    };
    let samples: Vec<f32> = (0u8..9).map(f32::from).collect();
    let planes = [samples.clone(), samples.clone(), samples.clone()];
    let kept = Place {
        filter: inner,
        ..place(3, 3)
    };
    assert_eq!(gabor(kept, [[0.5, 0.25]; 3], planes.clone()), planes);
    let part = Place {
        preserve_outside: false,
        ..kept
    };
    let [first, ..] = gabor(part, [[0.5, 0.25]; 3], planes);
    assert_eq!(first, [4.0]);
}

fn edge(iters: u32) -> Edge {
    // Iterations in the two lowest bits, then no custom settings.
    let (settings, _) = parse_epf(&[iters as u8], 0, false).unwrap();
    settings.unwrap()
}

/// Samples that differ little, so that neighbours have weight.
fn slope(count: u8) -> Planes {
    let samples: Vec<f32> = (0..count).map(|n| f32::from(n) / 1024.0).collect();
    [samples.clone(), samples.clone(), samples]
}

const SMALL_FRAME: Frame = Frame {
    width: 8,
    height: 8,
    upsampling: 1,
    lf_level: 0,
    group_size_shift: 0,
};

fn one_sigma(sigma: f32) -> [Option<SigmaGrid>; 1] {
    [Some(SigmaGrid {
        width: 1,
        height: 1,
        cells: vec![sigma],
    })]
}

#[test]
fn small_sigma_copies_and_nan_sigma_does_not_weigh() {
    let planes = slope(64);
    for sigma in [0.25, f32::NAN] {
        let out = epf(
            place(8, 8),
            SMALL_FRAME,
            &one_sigma(sigma),
            edge(2),
            planes.clone(),
        );
        assert_eq!(out, planes);
    }
    let out = epf(
        place(8, 8),
        SMALL_FRAME,
        &one_sigma(1.0),
        edge(2),
        planes.clone(),
    );
    assert_ne!(out, planes);
}

/// Where the original is not Specification 7.6 and 14.9 (docs/DIFFERENCES.md).
#[test]
fn the_originals_own_missing_grid_repeats_the_block_above() {
    // Group dimension 128: block row 128 is the first of the second group row, which has no grid.
    let frame = Frame {
        height: 1_032,
        ..SMALL_FRAME
    };
    let region = Region {
        left: 0,
        top: 127 * 8,
        width: 8,
        height: 16,
    };
    let place = Place {
        image: region,
        filter: region,
        preserve_outside: true,
    };
    for (last, copies) in [(0.25, true), (1.0, false)] {
        let grid = SigmaGrid {
            width: 1,
            height: 128,
            cells: [vec![1.0; 127], vec![last]].concat(),
        };
        let out = epf(place, frame, &[Some(grid), None], edge(1), slope(128));
        // Rows 8 to 15 are block row 128.
        assert_eq!(out[0][64..] == slope(128)[0][64..], copies);
    }
}

/// The same of the sigmas: block row 128 has that of row 127.
#[test]
fn the_originals_own_missing_grid_repeats_the_sigma_above() {
    let frame = Frame {
        height: 1_032,
        ..SMALL_FRAME
    };
    let filter = Region {
        left: 0,
        top: 127 * 8,
        width: 8,
        height: 16,
    };
    let cells: Vec<f32> = (0u8..128).map(f32::from).collect();
    let grid = SigmaGrid {
        width: 1,
        height: 128,
        cells,
    };
    let shown = sigma_rows(filter, frame, &[Some(grid), None], edge(1));
    // Rows with three above and three below, all of them in block rows 127 and 128.
    let rows: Vec<usize> = shown.iter().map(|(row, _)| row - 127 * 8).collect();
    assert_eq!(rows, Vec::from_iter(3..13));
    assert!(shown.iter().all(|(_, sigmas)| *sigmas == [127.0]));
}

#[test]
fn cells_read_where_the_library_refuses() {
    let grid = |width, height, cells: &[f32]| {
        Some(SigmaGrid {
            width,
            height,
            cells: cells.to_vec(),
        })
    };
    // A grid of one column: the next row's cell for block column 1.
    let wide = Region::with_size(16, 8);
    let shown = sigma_rows(wide, SMALL_FRAME, &[grid(1, 2, &[1.0, 2.0])], edge(1));
    assert_eq!(shown[0].1, [1.0, 2.0]);
    // One group per row, two per column: group row 1 for a block past the first group.
    let frame = Frame {
        height: 1_032,
        ..SMALL_FRAME
    };
    let past = Region {
        left: 1_024,
        ..Region::with_size(8, 8)
    };
    let grids = [grid(1, 1, &[1.0]), grid(1, 1, &[2.0])];
    assert_eq!(sigma_rows(past, frame, &grids, edge(1))[0].1, [2.0]);
}

#[test]
fn nan_sigma_filters() {
    let planes = |first| [vec![first, 1.0], vec![first, 1.0], vec![first, 1.0]];
    let step = |first: f32| {
        let (sources, mut targets) = (planes(first), planes(0.0));
        epf_step(
            1,
            edge(1),
            &[f32::NAN],
            (2, 0),
            sources.each_ref().map(Vec::as_slice),
            targets.each_mut().map(Vec::as_mut_slice),
        );
        targets[0].clone()
    };
    assert!(step(-0.0)[0].is_sign_positive());
    assert!(step(f32::INFINITY)[1].is_nan());
    assert!(step(f32::NAN)[1].is_nan());
}

#[test]
fn header_refusals() {
    assert_eq!(parse_gabor(&[], 0), Err(Error::BitsRunOut));
    assert_eq!(parse_gabor(&[0], usize::MAX), Err(Error::BitsRunOut));
    assert_eq!(parse_gabor(&[0], 3), Ok((None, 4)));
    let (weights, next) = parse_gabor(&[0b01], 0).unwrap();
    assert_eq!((weights, next), (Some([[0.115169525, 0.061248592]; 3]), 2));
    assert_eq!(
        parse_gabor(&halves(&[0x7C00; 6]), 0),
        Err(Error::HalfNotFinite)
    );
    // -1/8, -1/8, then 1/4, 0 for each channel.
    let refused = parse_gabor(&halves(&[0xB000; 6]), 0);
    assert!(matches!(refused, Err(Error::ValidationFailed(_))));
    let (weights, next) = parse_gabor(&halves(&[0x3400, 0, 0x3400, 0, 0x3400, 0]), 0).unwrap();
    assert_eq!((weights, next), (Some([[0.25, 0.0]; 3]), 98));
    assert_eq!(parse_epf(&[0], 0, true), Ok((None, 2)));
}

/// Enabled bit, custom bit, then the halves.
fn halves(values: &[u16]) -> Vec<u8> {
    let bits = values
        .iter()
        .rev()
        .fold(0u128, |bits, &value| bits << 16 | u128::from(value));
    (bits << 2 | 0b11).to_le_bytes().to_vec()
}

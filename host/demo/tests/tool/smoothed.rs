//! What the tool writes.

use crate::{Folder, pfm};
use restoration::{Frame, GaborSettings, Region, Settings, Setup, Smoothing};

const PICTURE: &str = "picture.pfm";
const OUT: &str = "out.pfm";
const COPY: [&str; 3] = ["--no-gabor", "--iters", "0"];

/// The file that the tool writes with these options.
fn smoothed(folder: &Folder, options: &[&str]) -> Vec<u8> {
    let output = folder.run(&[&[PICTURE, "-o", OUT][..], options].concat());
    let said = String::from_utf8(output.stderr).unwrap();
    assert_eq!(
        (output.status.code(), &said[..]),
        (Some(0), ""),
        "{options:?}"
    );
    assert_eq!(folder.names(), [OUT, PICTURE]);
    folder.read(OUT)
}

/// Bits of samples that differ little, so that each pass changes them.
fn texture(count: usize) -> impl Iterator<Item = u32> {
    let mut state: u32 = 1;
    (0..count).map(move |_| {
        state = state.wrapping_mul(1_664_525).wrapping_add(1_013_904_223);
        (0.5 + (state >> 8) as f32 / (1 << 30) as f32).to_bits()
    })
}

/// The rows of a rectangle, cut from a little-endian file.
fn cut(file: &[u8], width: usize, [left, top, columns, rows]: [usize; 4]) -> Vec<u8> {
    let header = file.iter().enumerate().filter(|(_, byte)| **byte == b'\n');
    let data = &file[header.map(|(at, _)| at + 1).nth(2).unwrap()..];
    let from_top: Vec<&[u8]> = data.chunks_exact(12 * width).rev().collect();
    let part = from_top[top..top + rows].iter().rev();
    let mut cut = pfm(columns, rows, []);
    part.for_each(|row| cut.extend(&row[12 * left..12 * (left + columns)]));
    cut
}

#[test]
fn no_passes_copy_the_file() {
    let folder = Folder::new("no_passes_copy_the_file");
    let (width, height) = (7, 5);
    let little = pfm(width, height, texture(105));
    let mut big = b"PF\n7 5\n2.5\n".to_vec();
    big.extend(texture(105).flat_map(u32::to_be_bytes));
    let specials = [
        0, 0x8000_0000, 1, 0x7F80_0000, 0xFF80_0000, 0x7F7F_FFFF, 0x807F_FFFF,
    ];
    let special = pfm(width, height, specials.repeat(15));
    let nans = pfm(
        width,
        height,
        (0..105).map(|n| 0x7F80_0001 + n * 0x0001_2345),
    );
    let white_space = pfm(width, height, [0x0A0D_0920; 105]);
    for file in [little, big, special, nans, white_space] {
        folder.write(PICTURE, &file);
        assert_eq!(smoothed(&folder, &COPY), file);
    }
}

#[test]
fn both_byte_orders_are_smoothed_alike() {
    let folder = Folder::new("both_byte_orders_are_smoothed_alike");
    let big = |little: &[u8]| {
        let (samples, _) = little[b"PF\n9 9\n-1.0\n".len()..].as_chunks::<4>();
        let samples = samples.iter().flat_map(|bytes| bytes.iter().rev());
        [
            &b"PF\n9 9\n1.0\n"[..],
            &samples.copied().collect::<Vec<u8>>(),
        ]
        .concat()
    };
    let little = pfm(9, 9, texture(243));
    folder.write(PICTURE, &little);
    let expected = big(&smoothed(&folder, &[]));
    folder.write(PICTURE, &big(&little));
    assert_eq!(smoothed(&folder, &[]), expected);
}

#[test]
fn headers_may_be_spaced_otherwise() {
    let folder = Folder::new("headers_may_be_spaced_otherwise");
    let plain = pfm(2, 1, 1..7);
    let data = &plain[plain.len() - 24..];
    for header in [
        "PF 2 1 -1.0 ",
        "PF\n\n 2\t1\r\n-1.0\n",
        "PF\n+2\n01\n-1.0\n",
    ] {
        folder.write(PICTURE, &[header.as_bytes(), data].concat());
        assert_eq!(smoothed(&folder, &COPY), plain);
    }
}

#[test]
fn rows_of_a_rectangle_count_from_the_top() {
    let folder = Folder::new("rows_of_a_rectangle_count_from_the_top");
    folder.write(PICTURE, &pfm(1, 3, [7, 8, 9, 4, 5, 6, 1, 2, 3]));
    let options = [&["--rect", "0,0,1,2"][..], &COPY].concat();
    assert_eq!(smoothed(&folder, &options), pfm(1, 2, [4, 5, 6, 1, 2, 3]));
}

/// Known results of the Gabor-like pass, each plane with its own weights.
#[test]
fn weights_are_of_side_and_corner_by_plane() {
    let folder = Folder::new("weights_are_of_side_and_corner_by_plane");
    let file = |samples: [[f32; 3]; 9]| {
        let bits = samples.as_flattened().iter().map(|sample| sample.to_bits());
        pfm(3, 3, bits.collect::<Vec<_>>())
    };
    let mut point = [[0.0; 3]; 9];
    point[4] = [16.0; 3];
    folder.write(PICTURE, &file(point));
    let expected = [1.0, 2.0, 1.0, 2.0, 4.0, 2.0, 1.0, 2.0, 1.0].map(|sample| [sample; 3]);
    let options = ["--gabor", "0.5,0.25", "--iters", "0"];
    assert_eq!(smoothed(&folder, &options), file(expected));
    // Weights 0, 0 copy; 0.25, 0 give half to the centre and an eighth to each side.
    let options = ["--gabor", "0.5,0.25,0,0,0.25,0", "--iters", "0"];
    let third = [0.0, 2.0, 0.0, 2.0, 8.0, 2.0, 0.0, 2.0, 0.0];
    let expected = core::array::from_fn(|at| [expected[at][0], point[at][1], third[at]]);
    assert_eq!(smoothed(&folder, &options), file(expected));
}

/// What the library itself makes of a file's samples: a header's defaults, one sigma, planes from the
/// top row.
fn by_library(
    file: &[u32],
    (width, height): (u32, u32),
    change: impl Fn(&mut Settings),
) -> Vec<u8> {
    let at = |c: u32, x: u32, y: u32| ((height - 1 - y) * width + x) * 3 + c;
    let rows = |c| (0..height).flat_map(move |y| (0..width).map(move |x| at(c, x, y) as usize));
    let places: Vec<usize> = (0..3).flat_map(rows).collect();
    let planes = places.iter().map(|&at| f32::from_bits(file[at]));
    let smooth = by_run(planes.collect(), (width, height), change);
    let mut bits = vec![0; file.len()];
    for (at, sample) in places.into_iter().zip(smooth) {
        bits[at] = sample.to_bits();
    }
    pfm(width as usize, height as usize, bits)
}

/// With bands and groups other than the tool's.
fn by_run(
    planes: Vec<f32>,
    (width, height): (u32, u32),
    change: impl Fn(&mut Settings),
) -> Vec<f32> {
    let (filter, _) = restoration::read_filters_vardct(&[0b1101], 0)
        .value()
        .unwrap();
    let mut settings = filter.into();
    change(&mut settings);
    let setup = Setup {
        preserve_outside: 1,
        settings,
        band_height: 16,
        ..Setup::whole(Region::with_size(width, height))
    };
    let frame = Frame {
        group_size_shift: 3,
        ..Frame::with_size(width, height)
    };
    let smoothing = Smoothing::start(setup, frame, &[0; 3], &[], planes);
    smoothing.unwrap().finish().unwrap()
}

type Change = fn(&mut Settings);

/// Options, and what they change in the settings.
const OPTIONS: [(&[&str], Change); 6] = [
    (&[], |_| {}),
    (&["--iters", "1", "--sigma", "0.5"], |s| {
        s.epf.iters = 1;
        s.epf.sigma_for_modular = 0.5;
    }),
    (&["--iters", "2", "--no-gabor"], |s| {
        s.epf.iters = 2;
        s.gabor.enabled = 0;
    }),
    (&["--iters", "0", "--gabor", "0.2,0.1"], |s| {
        s.epf.iters = 0;
        s.gabor = GaborSettings::with_weights([[0.2, 0.1]; 3]);
    }),
    (&["--gabor", "0.1,0.2,-0.3,0.4,0.5,0.6"], |s| {
        s.gabor.weights = [[0.1, 0.2], [-0.3, 0.4], [0.5, 0.6]];
    }),
    (&["--sigma", "NaN"], |s| s.epf.sigma_for_modular = f32::NAN),
];

#[test]
fn weights_and_sigma_may_be_any_float() {
    let folder = Folder::new("weights_and_sigma_may_be_any_float");
    folder.write(PICTURE, &pfm(9, 9, texture(243)));
    for float in ["NaN", "inf", "-inf", "1e39", "1e-46"] {
        let weights = format!("{float},{float}");
        smoothed(&folder, &["--gabor", &weights, "--sigma", float]);
    }
}

#[test]
fn options_are_the_librarys_settings() {
    let folder = Folder::new("options_are_the_librarys_settings");
    let (width, height) = (37, 29);
    let plain: Vec<u32> = texture(3 * 37 * 29).collect();
    let mut with_nans = plain.clone();
    with_nans
        .iter_mut()
        .step_by(50)
        .for_each(|bits| *bits = 0x7FC0_0001);
    let nans = vec![0xFFFF_FFFF; plain.len()];
    for samples in [plain, with_nans, nans] {
        let file = pfm(width, height, samples.iter().copied());
        folder.write(PICTURE, &file);
        for (options, change) in OPTIONS {
            let expected = by_library(&samples, (width as u32, height as u32), change);
            assert!(smoothed(&folder, options) == expected, "{options:?}");
            let copied = expected == file;
            assert!(
                !copied || samples[1] == 0xFFFF_FFFF,
                "{options:?} change nothing"
            );
        }
    }
}

#[test]
fn a_rectangle_has_the_samples_of_the_whole() {
    let folder = Folder::new("a_rectangle_has_the_samples_of_the_whole");
    let width = 61;
    folder.write(PICTURE, &pfm(width, 53, texture(3 * 61 * 53)));
    let rectangles = [
        [0, 0, 61, 53],
        [0, 0, 1, 1],
        [60, 52, 1, 1],
        [30, 26, 1, 1],
        [14, 22, 20, 10],
        [17, 25, 23, 11],
        [0, 13, 61, 2],
        [33, 0, 5, 53],
    ];
    for (options, _) in OPTIONS {
        let whole = smoothed(&folder, options);
        for rectangle in rectangles {
            let rect = rectangle.map(|number| number.to_string()).join(",");
            let part = smoothed(&folder, &[options, &["--rect", &rect]].concat());
            assert!(part == cut(&whole, width, rectangle), "{options:?} {rect}");
        }
    }
}

/// Sides that are out of range when extended.
#[test]
fn the_widest_picture() {
    let folder = Folder::new("the_widest_picture");
    let width = 16_384;
    folder.write(PICTURE, &pfm(width, 2, texture(6 * 16_384)));
    let whole = smoothed(&folder, &[]);
    for rectangle in [[0, 0, 16_384, 1], [3, 1, 16_380, 1], [16_000, 0, 384, 2]] {
        let rect = rectangle.map(|number| number.to_string()).join(",");
        let part = smoothed(&folder, &["--rect", &rect]);
        assert!(part == cut(&whole, width, rectangle), "{rect}");
    }
}

//! Pictures of one plane: they are filtered as one plane and stay grey.

use restoration::{Frame, Region, Settings, Setup, Smoothing};

use crate::{Folder, grey_pfm, pfm};

const PICTURE: &str = "picture.pfm";
const OUT: &str = "out.pfm";
const COPY: [&str; 3] = ["--no-gabor", "--iters", "0"];

/// What the tool writes with these options, and says.
fn ran(folder: &Folder, options: &[&str]) -> (Vec<u8>, String) {
    let output = folder.run(&[&[PICTURE][..], options].concat());
    let said = str::from_utf8(&output.stderr).unwrap();
    assert_eq!((output.status.code(), said), (Some(0), ""), "{options:?}");
    assert_eq!(folder.names(), [OUT, PICTURE]);
    (folder.read(OUT), String::from_utf8(output.stdout).unwrap())
}

fn smoothed(folder: &Folder, options: &[&str]) -> Vec<u8> {
    ran(folder, &[&["-o", OUT][..], options].concat()).0
}

/// Bits of samples that differ little.
fn texture(count: u32) -> Vec<u32> {
    let sample = |n: u32| 0.5 + (n * n % 101) as f32 / 2048.0;
    (0..count).map(|n| sample(n).to_bits()).collect()
}

#[test]
fn no_passes_copy_a_grey_file() {
    let folder = Folder::new("no_passes_copy_a_grey_file");
    let mut big = b"Pf\n7 5\n2.5\n".to_vec();
    big.extend(texture(35).into_iter().flat_map(u32::to_be_bytes));
    let nans = grey_pfm(7, 5, (0..35).map(|n| 0x7F80_0001 + n * 0x0001_2345));
    for file in [grey_pfm(7, 5, texture(35)), big, nans] {
        folder.write(PICTURE, &file);
        assert_eq!(smoothed(&folder, &COPY), file);
    }
    // Rows of a file go from the bottom, those of a rectangle from the top.
    folder.write(PICTURE, &grey_pfm(2, 3, [5, 6, 3, 4, 1, 2]));
    let options = [&COPY[..], &["--rect", "1,0,1,2"]].concat();
    assert_eq!(smoothed(&folder, &options), grey_pfm(1, 2, [4, 2]));
}

/// What the library itself makes of the one plane with a header's defaults.
fn by_library(file: &[u32], width: u32, change: fn(&mut Settings)) -> Vec<u32> {
    let height = file.len() as u32 / width;
    let turned = |rows: &[u32]| {
        rows.rchunks_exact(width as usize)
            .collect::<Vec<_>>()
            .concat()
    };
    let (filter, _) = restoration::read_filters_vardct(&[0b1101], 0)
        .value()
        .unwrap();
    let mut settings = filter.into();
    change(&mut settings);
    let setup = Setup {
        settings,
        ..Setup::grey(Region::with_size(width, height))
    };
    let frame = Frame::with_size(width, height);
    let plane = turned(file).into_iter().map(f32::from_bits).collect();
    let smoothing = Smoothing::start(setup, frame, &[0; 3], &[], plane).unwrap();
    let smooth = smoothing.finish().unwrap();
    turned(&smooth.into_iter().map(f32::to_bits).collect::<Vec<_>>())
}

type Change = fn(&mut Settings);

/// Options, and what they change in the settings: of six weights the first two are the plane's.
const OPTIONS: [(&[&str], Change); 5] = [
    (&[], |_| {}),
    (&["--iters", "1", "--sigma", "0.5"], |s| {
        s.epf.iters = 1;
        s.epf.sigma_for_modular = 0.5;
    }),
    (&["--no-gabor"], |s| s.gabor.enabled = 0),
    (&["--iters", "0", "--gabor", "0.2,0.1"], |s| {
        s.epf.iters = 0;
        s.gabor.weights[0] = [0.2, 0.1];
    }),
    (&["--gabor", "0.2,0.1,NaN,inf,NaN,NaN"], |s| {
        s.gabor.weights[0] = [0.2, 0.1];
    }),
];

#[test]
fn options_are_those_of_the_first_plane() {
    let folder = Folder::new("options_are_those_of_the_first_plane");
    let samples = texture(37 * 29);
    let file = grey_pfm(37, 29, samples.iter().copied());
    folder.write(PICTURE, &file);
    for (options, change) in OPTIONS {
        let expected = grey_pfm(37, 29, by_library(&samples, 37, change));
        assert!(smoothed(&folder, options) == expected, "{options:?}");
        assert!(expected != file, "{options:?} change nothing");
    }
}

/// The Gabor-like filter has no part in other planes: it makes of a grey picture the first plane of a picture with
/// others beside it.
#[test]
fn a_grey_picture_is_the_first_plane_of_three() {
    let folder = Folder::new("a_grey_picture_is_the_first_plane_of_three");
    let samples = texture(19 * 23);
    let options = ["--iters", "0", "--gabor", "0.2,0.1,0.3,0,-0.1,0.5"];
    folder.write(PICTURE, &grey_pfm(19, 23, samples.iter().copied()));
    let grey = smoothed(&folder, &options);
    let three = samples.iter().flat_map(|bits| [*bits, 7, 0x7FC0_0000]);
    folder.write(PICTURE, &pfm(19, 23, three));
    let three = smoothed(&folder, &options);
    let start = "PF\n19 23\n-1.0\n".len();
    let (pixels, _) = three[start..].as_chunks::<12>();
    let first: Vec<u8> = pixels
        .iter()
        .flat_map(|pixel| &pixel[..4])
        .copied()
        .collect();
    assert!(grey[start..] == first);
}

#[test]
fn a_rectangle_has_the_samples_of_the_whole() {
    let folder = Folder::new("a_rectangle_of_a_grey_picture");
    let (width, height) = (61, 53);
    folder.write(PICTURE, &grey_pfm(width, height, texture(61 * 53)));
    let start = "Pf\n61 53\n-1.0\n".len();
    let whole = smoothed(&folder, &[]);
    let (whole, _) = whole[start..].as_chunks::<4>();
    for [left, top, columns, rows] in [
        [0, 0, 61, 53],
        [0, 0, 1, 1],
        [60, 52, 1, 1],
        [14, 22, 20, 10],
        [17, 25, 23, 11],
    ] {
        let rect = format!("{left},{top},{columns},{rows}");
        // Row y of the file is row 52 - y of the picture.
        let from_bottom = (top..top + rows)
            .rev()
            .map(|y| (height - 1 - y) * width + left);
        let bits = from_bottom.flat_map(|at| &whole[at..at + columns]);
        let expected = grey_pfm(columns, rows, bits.map(|bytes| u32::from_le_bytes(*bytes)));
        let part = smoothed(&folder, &["--rect", &rect]);
        assert!(part == expected, "{rect}");
    }
}

/// Of 3 × 2 samples, NaNs among them: sample n of the file, whose rows go from the bottom.
fn pattern(n: u32) -> u32 {
    0x7F80_0001 + n * 0x0101_0101
}

#[test]
fn a_cut_file_has_one_plane() {
    let folder = Folder::new("a_cut_file_has_one_plane");
    folder.write(PICTURE, &grey_pfm(3, 2, (0..6).map(pattern)));
    let rects = ["--rect", "1,0,2,1", "--rect", "2,0,1,2"];
    let (file, said) = ran(&folder, &[&["--cut", OUT][..], &rects, &COPY].concat());
    let summary = "2 rectangles, 54 bytes; 4 samples read back, bit by bit: 0 differ";
    assert_eq!(said, format!("wrote '{OUT}': {summary}\n"));
    let mut expected = b"KCU1\x02\0".to_vec();
    for (offset, left, width, height) in [(38, 1, 2, 1), (46, 2, 1, 2)] {
        expected.extend([
            offset, 0, 0, 0, left, 0, 0, 0, 0, 0, 0, 0, width, 0, height, 0,
        ]);
    }
    expected.extend(
        [4, 5, 5, 2]
            .map(pattern)
            .into_iter()
            .flat_map(u32::to_le_bytes),
    );
    assert_eq!(file, expected);
    // The whole picture, smoothed.
    folder.write(PICTURE, &grey_pfm(3, 2, texture(6)));
    let (cut, _) = ran(&folder, &["--cut", OUT]);
    let smooth = smoothed(&folder, &[]);
    let (below, above) = smooth[smooth.len() - 24..].split_at(12);
    assert_eq!(cut[22..], [above, below].concat());
}

/// 2048 × 2048 samples are 16,777,238 bytes.
#[test]
fn a_cut_file_of_one_plane_holds_more() {
    let folder = Folder::new("a_cut_file_of_one_plane_holds_more");
    folder.write(PICTURE, &grey_pfm(2048, 2048, vec![0; 2048 * 2048]));
    let options = |rect| [&["--cut", OUT, "--rect", rect][..], &COPY].concat();
    let (_, said) = ran(&folder, &options("0,0,2048,2047"));
    assert!(said.contains("1 rectangle, 16,769,046 bytes"), "{said}");
    let output = folder.run(&[&[PICTURE][..], &options("0,0,2048,2048")].concat());
    let said = str::from_utf8(&output.stderr).unwrap();
    assert!(said.ends_with("(refusal 7)\n"), "{said}");
    assert_eq!(output.status.code(), Some(2));
}

/// The rectangles of the built-in grey picture.
#[test]
fn a_cut_file_of_the_built_in_picture() {
    let folder = Folder::new("a_cut_file_of_the_built_in_picture");
    let output = folder.run(&["--grey", "-o", "files", "--cut", OUT]);
    let said = str::from_utf8(&output.stdout).unwrap();
    assert_eq!(output.status.code(), Some(0), "{said}");
    let read_back = "393,216 samples read back, bit by bit: 0 differ";
    let line = format!("cut file    '{OUT}': 36 rectangles, 1,573,446 bytes; {read_back}");
    assert!(said.lines().any(|l| l == line), "{said}");
    assert_eq!(folder.read(OUT)[..6], *b"KCU1\x24\0");
}

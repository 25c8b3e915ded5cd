//! Cut files that the tool writes.

use std::{fs, os::unix::fs::symlink};

use crate::{Folder, pfm, refused::expect};

const PICTURE: &str = "picture.pfm";
const CUT: &str = "cut.kcut";
const COPY: [&str; 3] = ["--no-gabor", "--iters", "0"];

/// What the tool prints when it writes a cut file with these options.
fn written(folder: &Folder, options: &[&str]) -> String {
    let output = folder.run(&[&[PICTURE, "--cut", CUT][..], options].concat());
    let said = String::from_utf8(output.stderr).unwrap();
    assert_eq!(
        (output.status.code(), &said[..]),
        (Some(0), ""),
        "{options:?}"
    );
    assert_eq!(folder.names(), [CUT, PICTURE]);
    String::from_utf8(output.stdout).unwrap()
}

fn number(bytes: &[u8]) -> usize {
    bytes
        .iter()
        .rev()
        .fold(0, |high, byte| high << 8 | usize::from(*byte))
}

/// Bits of a picture of 3 × 2, NaNs among them: sample n of the file, whose rows go from the bottom.
fn pattern(n: u32) -> u32 {
    0x7F80_0001 + n * 0x0101_0101
}

#[test]
fn each_rectangle_has_an_entry_and_its_bits() {
    let folder = Folder::new("each_rectangle_has_an_entry_and_its_bits");
    folder.write(PICTURE, &pfm(3, 2, (0..18).map(pattern)));
    let rects = [
        "--rect", "1,0,2,1", "--rect", "2,0,1,2", "--rect", "1,0,2,1",
    ];
    let said = written(&folder, &[&rects[..], &COPY].concat());
    let summary = "3 rectangles, 126 bytes; 18 samples read back, bit by bit: 0 differ";
    assert_eq!(said, format!("wrote '{CUT}': {summary}\n"));

    // Pixel x, y of the picture begins with sample 9 - 9 y + 3 x of the file.
    let body = |pixels: [(u32, u32); 2]| {
        let plane = move |c| pixels.map(|(x, y)| pattern(9 - 9 * y + 3 * x + c));
        (0..3).flat_map(plane).flat_map(u32::to_le_bytes)
    };
    let mut file = b"KCUT\x03\0".to_vec();
    for (offset, left, width, height) in [(54, 1, 2, 1), (78, 2, 1, 2), (102, 1, 2, 1)] {
        file.extend([
            offset, 0, 0, 0, left, 0, 0, 0, 0, 0, 0, 0, width, 0, height, 0,
        ]);
    }
    file.extend(body([(1, 0), (2, 0)]));
    file.extend(body([(2, 0), (2, 1)]));
    file.extend(body([(1, 0), (2, 0)]));
    assert_eq!(folder.read(CUT), file);
}

#[test]
fn without_a_rectangle_it_is_the_whole_picture() {
    let folder = Folder::new("without_a_rectangle_it_is_the_whole_picture");
    folder.write(PICTURE, &pfm(3, 2, (0..18).map(pattern)));
    let said = written(&folder, &COPY);
    let summary = "1 rectangle, 94 bytes; 18 samples read back, bit by bit: 0 differ";
    assert_eq!(said, format!("wrote '{CUT}': {summary}\n"));
    assert_eq!(number(&folder.read(CUT)[18..20]), 3);
    assert_eq!(number(&folder.read(CUT)[20..22]), 2);
}

/// The samples of the picture that is written without `--cut`.
#[test]
fn rectangles_are_smoothed() {
    let folder = Folder::new("rectangles_are_smoothed");
    let bits = (0..3 * 40 * 30).map(|n: u32| (n * 7919 % 256) as f32 / 256.0);
    folder.write(PICTURE, &pfm(40, 30, bits.map(f32::to_bits)));
    let _ = written(&folder, &["--rect", "9,5,1,1"]);
    let cut = folder.read(CUT);
    assert_eq!(
        folder
            .run(&[PICTURE, "--rect", "9,5,1,1", "-o", CUT])
            .status
            .code(),
        Some(0)
    );
    let smooth = folder.read(CUT);
    assert_eq!(cut[22..], smooth[smooth.len() - 12..]);
}

#[test]
fn the_library_refuses_too_many_rectangles_and_too_many_bytes() {
    let folder = Folder::new("the_library_refuses_too_many_rectangles_and_too_many_bytes");
    folder.write(PICTURE, &pfm(1, 1, [1, 2, 3]));
    let rects = |count| ["--rect", "0,0,1,1"].repeat(count);
    let said = written(&folder, &rects(64));
    assert!(
        said.contains("64 rectangles, 1,798 bytes; 192 samples"),
        "{said}"
    );
    let as_it_was = folder.read(CUT);
    let count = "the marker of a cut file is wrong, or its count of rectangles is not 1 to 64";
    let words = [&[PICTURE, "--cut", CUT][..], &rects(65)].concat();
    let line = format!("'{CUT}' (65 rectangles): {count} (refusal 12)");
    expect(&folder, &words, &line);

    // 1183 × 1182 samples are 16,779,694 bytes.
    folder.write(PICTURE, &pfm(1183, 1182, vec![0; 3 * 1183 * 1182]));
    let length = "a slice has a wrong length, or a cut file is longer than 16,777,216 bytes";
    let line = format!("'{CUT}' (1 rectangle): {length} (refusal 7)");
    expect(&folder, &[PICTURE, "--cut", CUT], &line);
    assert_eq!(folder.read(CUT), as_it_was);
    let said = written(&folder, &[&COPY[..], &["--rect", "0,0,1183,1181"]].concat());
    assert!(said.contains("1 rectangle, 16,765,498 bytes"), "{said}");
}

#[test]
fn rectangles_outside_and_files_that_cannot_be_written() {
    let folder = Folder::new("rectangles_outside_and_files_that_cannot_be_written");
    folder.write(PICTURE, &pfm(3, 2, 0..18));
    let not_inside = "the filter region is not inside the image region (refusal 5)";
    let words = [
        PICTURE, "--cut", CUT, "--rect", "0,0,1,1", "--rect", "3,0,1,1",
    ];
    expect(&folder, &words, &format!("--rect 3,0,1,1: {not_inside}"));
    let absent = "cannot write 'absent/a.kcut': No such file or directory";
    expect(&folder, &[PICTURE, "--cut", "absent/a.kcut"], absent);
    // All files are written, or none.
    expect(&folder, &["--cut", "absent/a.kcut"], absent);
    expect(
        &folder,
        &["--cut", ""],
        "cannot write '': No such file or directory",
    );
}

/// Its own name, another path to it, and links to it or to its folder.
#[test]
fn the_picture_is_not_replaced() {
    let folder = Folder::new("the_picture_is_not_replaced");
    let picture = pfm(3, 2, 0..18);
    folder.write(PICTURE, &picture);
    fs::create_dir(folder.0.join("inner")).unwrap();
    symlink(PICTURE, folder.0.join("link")).unwrap();
    symlink("..", folder.0.join("inner/outer")).unwrap();
    let absolute = folder.0.join(PICTURE);
    let names = [
        PICTURE,
        "./picture.pfm",
        "inner/../picture.pfm",
        "inner/outer/picture.pfm",
        "link",
        absolute.to_str().unwrap(),
    ];
    for input in names {
        for cut in names {
            let line = format!("'{cut}': the cut file must not replace '{input}'");
            expect(&folder, &[input, "--cut", cut], &line);
        }
    }
    // This comes before the library's refusal of 65 rectangles.
    let line = format!("'{PICTURE}': the cut file must not replace '{PICTURE}'");
    let rects = ["--rect", "0,0,1,1"].repeat(65);
    let words = [&[PICTURE, "--cut", PICTURE][..], &rects].concat();
    expect(&folder, &words, &line);
    assert_eq!(folder.read(PICTURE), picture);
    assert!(folder.0.join("link").is_symlink());
}

/// A file of the same name in another folder, and another name of the same bytes: the picture stays.
#[test]
fn other_files_are_replaced() {
    let folder = Folder::new("other_files_are_replaced");
    let picture = pfm(3, 2, 0..18);
    folder.write(PICTURE, &picture);
    fs::create_dir(folder.0.join("inner")).unwrap();
    folder.write("inner/picture.pfm", b"old");
    fs::hard_link(folder.0.join(PICTURE), folder.0.join(CUT)).unwrap();
    for cut in ["inner/picture.pfm", CUT] {
        let output = folder.run(&[PICTURE, "--cut", cut]);
        assert_eq!(output.status.code(), Some(0), "{cut}");
        assert_eq!(folder.read(cut)[..4], *b"KCUT", "{cut}");
    }
    assert_eq!(folder.read(PICTURE), picture);
}

/// In a folder that is there, and in one that is not and is not left.
#[test]
fn the_built_in_pictures_files_are_not_replaced() {
    let folder = Folder::new("the_built_in_pictures_files_are_not_replaced");
    let names = ["before.png", "after.png", "seams.png"];
    for name in names {
        let (given, default) = (format!("new/{name}"), format!("demo-out/{name}"));
        let round = format!("new/../new/{name}");
        for (words, cut, kept) in [
            (&["-o", "new", "--cut"][..], &given, &given),
            (&["-o", "new", "--cut"], &round, &given),
            (&["--cut"], &default, &default),
        ] {
            let line = format!("'{cut}': the cut file must not replace '{kept}'");
            expect(&folder, &[words, &[cut]].concat(), &line);
        }
    }
    assert!(folder.names().is_empty());

    fs::create_dir(folder.0.join("files")).unwrap();
    folder.write("files/after.png", b"old");
    symlink("files", folder.0.join("to-files")).unwrap();
    symlink("files/after.png", folder.0.join("link")).unwrap();
    for cut in ["files/after.png", "to-files/after.png", "link"] {
        let line = format!("'{cut}': the cut file must not replace 'files/after.png'");
        expect(&folder, &["-o", "files", "--cut", cut], &line);
    }
    let line = "'files/seams.png': the cut file must not replace 'to-files/seams.png'";
    let words = ["-o", "to-files", "--cut", "files/seams.png"];
    expect(&folder, &words, line);
    assert_eq!(folder.read("files/after.png"), b"old");
    assert_eq!(Folder::names_in(&folder.0.join("files")), ["after.png"]);

    // The same name elsewhere, and another name there.
    for cut in ["after.png", "files/cut.kcut"] {
        let output = folder.run(&["-o", "files", "--cut", cut]);
        assert_eq!(output.status.code(), Some(0), "{cut}");
        assert_eq!(folder.read(cut)[..4], *b"KCUT", "{cut}");
        assert_eq!(folder.read("files/after.png")[..4], *b"\x89PNG");
    }
}

#[test]
fn the_built_in_pictures_rectangles() {
    let folder = Folder::new("the_built_in_pictures_rectangles");
    let output = folder.run(&["-o", "files", "--cut", CUT]);
    let said = String::from_utf8(output.stdout).unwrap();
    assert_eq!(output.status.code(), Some(0), "{said}");
    let read_back = "1,179,648 samples read back, bit by bit: 0 differ";
    let line = format!("cut file    '{CUT}': 36 rectangles, 4,719,174 bytes; {read_back}");
    assert!(said.lines().any(|l| l == line), "{said}");
    assert_eq!(folder.names(), [CUT, "files"]);
    let file = folder.read(CUT);
    assert_eq!((file.len(), number(&file[4..6])), (4_719_174, 36));
    // The first sample of the last rectangle.
    let offset = number(&file[6 + 35 * 16..][..4]);
    assert_eq!(offset, file.len() - 12 * 128 * 32);
}

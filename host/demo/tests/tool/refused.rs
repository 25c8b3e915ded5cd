//! What the tool rejects: exit status 2, one line, no file left. The line ends in a number only if
//! the library refused.

use std::process::Output;

use crate::{Folder, grey_pfm, pfm};

const PICTURE: &str = "picture.pfm";

/// The library's refusals that the tool can meet.
const OUT_OF_RANGE: &str = "a side, area, left or top is out of range (refusal 4)";
const NOT_INSIDE: &str = "the filter region is not inside the image region (refusal 5)";

/// Runs the tool in a folder and expects this line and the folder as it was.
pub fn expect(folder: &Folder, words: &[&str], line: &str) {
    let names = folder.names();
    expect_line(&folder.run(words), line);
    assert_eq!(folder.names(), names, "{words:?}");
}

pub fn expect_line(output: &Output, line: &str) {
    let said = str::from_utf8(&output.stderr).unwrap();
    assert_eq!(said, format!("demo: {line}\n"));
    assert_eq!(output.status.code(), Some(2), "{said}");
    assert!(output.stdout.is_empty(), "{said}");
}

/// A file that is rejected whatever the options, also a rectangle outside it.
fn expect_file(folder: &Folder, bytes: &[u8], what: &str) {
    folder.write(PICTURE, bytes);
    let line = format!("'{PICTURE}'{what}");
    expect(folder, &[PICTURE, "-o", "out.pfm"], &line);
    let words = [PICTURE, "--rect", "99,99,1,1", "--iters", "0"];
    expect(folder, &words, &line);
    assert_eq!(folder.read(PICTURE), bytes);
}

fn sound() -> Vec<u8> {
    pfm(5, 4, 0..60)
}

fn sound_grey() -> Vec<u8> {
    grey_pfm(5, 4, 0..20)
}

#[test]
fn the_sound_file_is_accepted() {
    let folder = Folder::new("the_sound_file_is_accepted");
    folder.write(PICTURE, &sound());
    let output = folder.run(&[PICTURE]);
    assert_eq!(output.status.code(), Some(0));
    assert!(output.stderr.is_empty());
    let said = "wrote 'picture-smoothed.pfm': 5 x 4 at 0, 0\n";
    assert_eq!(str::from_utf8(&output.stdout).unwrap(), said);
    assert_eq!(folder.names(), ["picture-smoothed.pfm", PICTURE]);
}

#[test]
fn truncated_in_its_header() {
    let folder = Folder::new("truncated_in_its_header");
    for file in [sound(), sound_grey()] {
        let header = file.iter().position(|byte| *byte == 0).unwrap();
        for length in 0..header {
            expect_file(&folder, &file[..length], ": ends inside its header");
        }
    }
}

#[test]
fn truncated_in_its_data_or_too_long() {
    let folder = Folder::new("truncated_in_its_data_or_too_long");
    let file = sound();
    let header = file.len() - 4 * 60;
    for length in [0, 1, 3, 4, 5, 120, 4 * 59, 4 * 60 - 3, 4 * 60 - 1] {
        let what = format!(": has {} of the 60 samples of 5 x 4", length / 4);
        expect_file(&folder, &file[..header + length], &what);
    }
    for more in [1, 2, 3, 4, 8, 240] {
        let file = [&file[..], &vec![0; more]].concat();
        expect_file(&folder, &file, ": has bytes after the 60 samples of 5 x 4");
    }
    let grey = sound_grey();
    for (length, samples) in [(grey.len() - 1, 19), (grey.len() - 80, 0)] {
        let what = format!(": has {samples} of the 20 samples of 5 x 4");
        expect_file(&folder, &grey[..length], &what);
    }
    for more in [1, 4, 160] {
        let file = [&grey[..], &vec![0; more]].concat();
        expect_file(&folder, &file, ": has bytes after the 20 samples of 5 x 4");
    }
}

#[test]
fn sides_out_of_range() {
    let folder = Folder::new("sides_out_of_range");
    let ten_to_30 = format!("1{}", "0".repeat(30));
    let sides = [
        ("0", "1"),
        ("1", "0"),
        ("-1", "1"),
        ("16385", "1"),
        ("1", "16385"),
        ("4097", "4096"),
        ("16384", "16384"),
        ("4294967295", "4294967295"),
        ("4294967296", "1"),
        (&ten_to_30, &ten_to_30),
        (&ten_to_30.repeat(2), "1"),
    ];
    for (width, height) in sides {
        let what = format!(" ({width} x {height}): {OUT_OF_RANGE}");
        // Data that is too short, and as long as one pixel needs.
        for magic in ["PF", "Pf"] {
            let header = format!("{magic}\n{width} {height}\n-1.0\n");
            expect_file(&folder, header.as_bytes(), &what);
            expect_file(&folder, &[header.as_bytes(), &[0; 12]].concat(), &what);
        }
    }
    let what = format!(" (16385 x 1): {OUT_OF_RANGE}");
    expect_file(&folder, &pfm(16_385, 1, vec![0; 3 * 16_385]), &what);
}

const NOT_PFM: &str = ": not a PFM file: does not begin with PF or Pf";
const NOT_TEXT: &str = ": a word in the header is not plain text";
const TOO_LONG: &str = ": a word in the header is longer than 64 bytes";

/// Headers, each with what is wrong in it.
const MISLABELLED: [(&[u8], &str); 18] = [
    (b"P6\n5 4\n255\n", NOT_PFM),
    (b"pf\n5 4\n-1.0\n", NOT_PFM),
    (b"PF5 4\n-1.0\n", NOT_PFM),
    (b"PFM\n5 4\n-1.0\n", NOT_PFM),
    (b" PF\n5 4\n-1.0\n", NOT_PFM),
    (b"\x89PNG\r\n\x1a\n\0\0\0\rIHDR", NOT_PFM),
    (b"\xFF\x0A\xFA\x7F", NOT_PFM),
    (b"garbage", NOT_PFM),
    (b"Pf5 4\n-1.0\n", NOT_PFM),
    (
        b"Pf\n5 4\n-1.0\n",
        ": has bytes after the 20 samples of 5 x 4",
    ),
    (
        b"PF\nfive four\n-1.0\n",
        ": width 'five' is not a whole number",
    ),
    (b"PF\n5 4.0\n-1.0\n", ": height '4.0' is not a whole number"),
    (b"PF\n5 \xFF\n-1.0\n", NOT_TEXT),
    (
        b"PF\n5 4\n0\n",
        ": scale '0' is not a finite number other than 0",
    ),
    (
        b"PF\n5 4\n-0.0\n",
        ": scale '-0.0' is not a finite number other than 0",
    ),
    (
        b"PF\n5 4\nNaN\n",
        ": scale 'NaN' is not a finite number other than 0",
    ),
    (
        b"PF\n5 4\n-inf\n",
        ": scale '-inf' is not a finite number other than 0",
    ),
    (
        b"PF\n5 4\none\n",
        ": scale 'one' is not a finite number other than 0",
    ),
];

#[test]
fn mislabelled() {
    let folder = Folder::new("mislabelled");
    let data = [0; 4 * 60];
    for (header, what) in MISLABELLED {
        expect_file(&folder, &[header, &data].concat(), what);
    }
    // The line of a scale is missing, so that samples are read as one.
    let no_scale = [b"PF\n5 4\n", &[1; 60][..], b"\n"].concat();
    expect_file(&folder, &no_scale, NOT_TEXT);
}

#[test]
fn words_of_a_header_are_short_and_plain() {
    let folder = Folder::new("words_of_a_header_are_short_and_plain");
    let file = |width: &str| format!("PF\n{width} 1\n-1.0\n{}", "\0".repeat(12)).into_bytes();
    let longest = format!("{}1", "0".repeat(63));
    folder.write(PICTURE, &file(&longest));
    let accepted = folder.run(&[PICTURE, "-o", PICTURE]);
    assert_eq!(accepted.status.code(), Some(0));
    expect_file(&folder, &file(&format!("0{longest}")), TOO_LONG);
    expect_file(&folder, &file(&"9".repeat(100_000)), TOO_LONG);
    expect_file(&folder, &file("\x1b[31m"), NOT_TEXT);
}

const RECT: &str = "must be LEFT,TOP,WIDTH,HEIGHT in whole numbers";
const GABOR: &str = "must be SIDE,CORNER, or six numbers, two per plane";
const ITERS: &str = "must be 0 to 3";
const SIGMA: &str = "must be a number";

/// Options and their values, each with what the value must be.
const VALUES: [(&str, &str, &str); 21] = [
    ("--rect", "1,2,3", RECT),
    ("--rect", "1,2,3,4,5", RECT),
    ("--rect", "0,0,1.5,1", RECT),
    ("--rect", "a,b,c,d", RECT),
    ("--rect", "--iters", RECT),
    ("--gabor", "0.1", GABOR),
    ("--gabor", "0.1,0.1,0.1", GABOR),
    ("--gabor", "0.1,0.1,0.1,0.1,0.1,0.1,0.1", GABOR),
    ("--gabor", "0.1;0.1", GABOR),
    ("--iters", "4", ITERS),
    ("--iters", "-1", ITERS),
    ("--iters", "-4294967293", ITERS),
    ("--iters", "4294967296", ITERS),
    ("--iters", "4294967299", ITERS),
    ("--iters", "1.0", ITERS),
    ("--iters", "three", ITERS),
    ("--iters", "=3", ITERS),
    ("--sigma", "much", SIGMA),
    ("--sigma", "1,0", SIGMA),
    ("--sigma", "--", SIGMA),
    ("--sigma", "-h", SIGMA),
];

/// Values that are printed in quotes.
const QUOTED: [(&str, &str, &str, &str); 6] = [
    ("--rect", "", "''", RECT),
    ("--gabor", "", "''", GABOR),
    ("--iters", "", "''", ITERS),
    ("--sigma", "", "''", SIGMA),
    ("--sigma", "a b", "'a b'", SIGMA),
    ("--sigma", "1\n\x1b[31m", r"'1\n\u{1b}[31m'", SIGMA),
];

#[test]
fn values_out_of_form_or_range() {
    let folder = Folder::new("values_out_of_form_or_range");
    folder.write(PICTURE, &sound());
    let plain = VALUES.map(|(option, value, must)| (option, value, value, must));
    for (option, value, shown, must) in plain.into_iter().chain(QUOTED) {
        let line = format!("{option} {shown}: {must}");
        expect(&folder, &[PICTURE, option, value], &line);
        expect(&folder, &[PICTURE, &format!("{option}={value}")], &line);
        // Before the file is read.
        expect(&folder, &[option, value, "absent.pfm"], &line);
    }
    assert_eq!(folder.read(PICTURE), sound());
}

/// Command lines that `--help` explains.
const USAGE: [(&[&str], &str); 23] = [
    (&[PICTURE, "--foo"], "unknown option '--foo'"),
    (&[PICTURE, "--foo=bar"], "unknown option '--foo'"),
    (&[PICTURE, "--=bar"], "unknown option '--'"),
    (
        &[PICTURE, "--rectangle", "0,0,1,1"],
        "unknown option '--rectangle'",
    ),
    (&[PICTURE, "--a\nb"], r"unknown option '--a\nb'"),
    (&[PICTURE, "-x"], "unknown option '-x'"),
    (&[PICTURE, "-o=out.pfm"], "unknown option '-o=out.pfm'"),
    (&[PICTURE, "--rect"], "option '--rect' needs a value"),
    (&[PICTURE, "--gabor"], "option '--gabor' needs a value"),
    (&[PICTURE, "--iters"], "option '--iters' needs a value"),
    (&[PICTURE, "--sigma"], "option '--sigma' needs a value"),
    (&[PICTURE, "-o"], "option '-o' needs a value"),
    (&[PICTURE, "--output"], "option '--output' needs a value"),
    (&[PICTURE, "--cut"], "option '--cut' needs a value"),
    (&[PICTURE, "--cut", "-"], "--cut -: must be a file"),
    (&["--cut=-"], "--cut -: must be a file"),
    (
        &[PICTURE, "--cut=a.kcut", "-o", "b.pfm"],
        "--cut and -o: a picture has one output",
    ),
    (
        &["--cut=a.kcut", "--rect=0,0,1,1"],
        "--rect needs a picture",
    ),
    (
        &[PICTURE, "--no-gabor=1"],
        "option '--no-gabor' takes no value",
    ),
    (&["--grey=1"], "option '--grey' takes no value"),
    (&[PICTURE, "--grey"], "--grey is for the built-in picture"),
    (&[PICTURE, "b.pfm"], "extra argument 'b.pfm'"),
    (&[PICTURE, "-"], "extra argument '-'"),
];

#[test]
fn wrong_usage() {
    let folder = Folder::new("wrong_usage");
    folder.write(PICTURE, &sound());
    for (words, what) in USAGE {
        expect(&folder, words, &format!("{what} (see --help)"));
    }
    for word in ["--help", "--version"] {
        let line = format!("option '{word}' takes no value (see --help)");
        expect(&folder, &[&format!("{word}=1")], &line);
    }
    assert_eq!(folder.read(PICTURE), sound());
}

#[test]
fn after_two_hyphens_there_are_no_options() {
    let folder = Folder::new("after_two_hyphens_there_are_no_options");
    expect(
        &folder,
        &["--", "--help"],
        "cannot read '--help': No such file or directory",
    );
    expect(
        &folder,
        &["--", "--", "x"],
        "extra argument 'x' (see --help)",
    );
    expect(
        &folder,
        &["x", "--", "-o"],
        "extra argument '-o' (see --help)",
    );
}

#[test]
fn without_a_picture_there_are_no_settings() {
    let folder = Folder::new("without_a_picture_there_are_no_settings");
    let options = [
        "--rect=0,0,1,1",
        "--gabor=0.1,0.1",
        "--no-gabor",
        "--iters=3",
        "--sigma=1",
    ];
    for option in options {
        let name = option.split('=').next().unwrap();
        expect(
            &folder,
            &[option],
            &format!("{name} needs a picture (see --help)"),
        );
    }
    let folder_needed = "-o -: must be a folder if no picture is given (see --help)";
    expect(&folder, &["-o", "-"], folder_needed);
}

const OUTSIDE: [&str; 11] = [
    "-1,0,2,2",
    "0,-1,2,2",
    "4,0,2,1",
    "0,3,1,2",
    "5,0,1,1",
    "0,4,1,1",
    "0,0,6,4",
    "0,0,5,5",
    "1000,1000,1,1",
    "1048576,0,1,1",
    "-1048576,-1048576,4096,4096",
];
const RECTS_OUT_OF_RANGE: [&str; 13] = [
    "0,0,0,1",
    "0,0,1,0",
    "0,0,0,5",
    "0,0,-1,1",
    "9,9,0,0",
    "0,0,16385,1",
    "0,0,1,16385",
    "0,0,4097,4096",
    "1048577,0,1,1",
    "0,-1048577,1,1",
    "99999999999,0,1,1",
    "0,0,99999999999,1",
    "-99999999999,0,1,1",
];

#[test]
fn rectangles_outside_the_picture_or_out_of_range() {
    let folder = Folder::new("rectangles_outside_the_picture_or_out_of_range");
    folder.write(PICTURE, &sound());
    for iters in ["0", "3"] {
        for (rects, what) in [
            (&OUTSIDE[..], NOT_INSIDE),
            (&RECTS_OUT_OF_RANGE, OUT_OF_RANGE),
        ] {
            for rect in rects {
                let words = [PICTURE, "--rect", rect, "--iters", iters];
                expect(&folder, &words, &format!("--rect {rect}: {what}"));
            }
        }
    }
}

#[test]
fn files_that_cannot_be_read_or_written() {
    let folder = Folder::new("files_that_cannot_be_read_or_written");
    folder.write(PICTURE, &sound());
    let read = |name: &str, why| expect(&folder, &[name], &format!("cannot read {why}"));
    read("absent.pfm", "'absent.pfm': No such file or directory");
    read("", "'': No such file or directory");
    read(".", "'.': Is a directory");
    read("a\nb", r"'a\nb': No such file or directory");
    let write = |words: &[&str], why| expect(&folder, words, &format!("cannot write {why}"));
    let absent = "'absent/out.pfm': No such file or directory";
    write(&[PICTURE, "-o", "absent/out.pfm"], absent);
    write(&[PICTURE, "-o", "."], "'.': not a regular file");
    write(&[PICTURE, "-o", ""], "'': No such file or directory");
    let below_a_file = "'picture.pfm/out.pfm': Not a directory";
    write(&[PICTURE, "-o", "picture.pfm/out.pfm"], below_a_file);
    write(
        &["-o", "absent/folder"],
        "'absent/folder': No such file or directory",
    );
    write(&["-o", PICTURE], "'picture.pfm': File exists");
    assert_eq!(folder.read(PICTURE), sound());
}

//! Standard input and output as `-`, and the other ways to write a command line.

use std::process::Output;

use crate::{Folder, pfm, refused::expect_line};

const PICTURE: &str = "picture.pfm";
const OUT: &str = "out.pfm";
const RECT: &str = "1,0,3,2";

/// A folder with a picture, and what the tool makes of its rectangle.
fn with_picture(test: &str) -> (Folder, Vec<u8>) {
    let folder = Folder::new(test);
    folder.write(
        PICTURE,
        &pfm(5, 4, (0..60).map(|n| 0x3F00_0000 + (n << 12))),
    );
    let output = folder.run(&[PICTURE, "--rect", RECT, "-o", OUT]);
    assert_eq!(output.status.code(), Some(0));
    let smooth = folder.read(OUT);
    std::fs::remove_file(folder.0.join(OUT)).unwrap();
    (folder, smooth)
}

/// Expects these bytes on standard output, nothing else, and no file.
fn expect_bytes(folder: &Folder, output: &Output, bytes: &[u8]) {
    assert_eq!(str::from_utf8(&output.stderr), Ok(""));
    assert_eq!(output.status.code(), Some(0));
    assert!(output.stdout == bytes);
    assert_eq!(folder.names(), [PICTURE]);
}

/// Expects these bytes in the file, and a line.
fn expect_file(folder: &Folder, output: &Output, bytes: &[u8]) {
    assert_eq!(str::from_utf8(&output.stderr), Ok(""));
    assert_eq!(output.status.code(), Some(0));
    assert_eq!(output.stdout, b"wrote 'out.pfm': 3 x 2 at 1, 0\n");
    assert!(folder.read(OUT) == bytes);
    std::fs::remove_file(folder.0.join(OUT)).unwrap();
}

#[test]
fn a_hyphen_is_standard_input_or_output() {
    let (folder, smooth) = with_picture("a_hyphen_is_standard_input_or_output");
    let rect = ["--rect", RECT];
    for words in [
        &["-"][..],
        &["--", "-"],
        &["-", "-o", "-"],
        &["-", "--output=-"],
    ] {
        let output = folder.run_on(PICTURE, &[&rect, words].concat());
        expect_bytes(&folder, &output, &smooth);
    }
    let output = folder.run(&[&rect[..], &[PICTURE, "-o", "-"]].concat());
    expect_bytes(&folder, &output, &smooth);
    let output = folder.run_on(PICTURE, &[&rect[..], &["-", "-o", OUT]].concat());
    expect_file(&folder, &output, &smooth);
}

#[test]
fn a_file_named_hyphen_has_a_folder() {
    let (folder, smooth) = with_picture("a_file_named_hyphen_has_a_folder");
    std::fs::rename(folder.0.join(PICTURE), folder.0.join("-")).unwrap();
    let output = folder.run(&["./-", "--rect", RECT, "-o", OUT]);
    expect_file(&folder, &output, &smooth);
}

#[test]
fn values_may_follow_an_equals_sign() {
    let (folder, smooth) = with_picture("values_may_follow_an_equals_sign");
    let options = [
        &["--rect=1,0,3,2", "--output=out.pfm"][..],
        &["--rect=1,0,3,2", "--output", OUT],
        &["--rect", RECT, "--iters=3", "--sigma=1", "-o", OUT],
        &["--rect=9,9,9,9", "--rect=1,0,3,2", "-o", OUT],
    ];
    for options in options {
        let output = folder.run(&[options, &[PICTURE]].concat());
        expect_file(&folder, &output, &smooth);
    }
    let spaced = folder.run(&[PICTURE, "--iters", "1", "--gabor", "0.1,0.2", "-o", "-"]);
    let joined = folder.run(&[PICTURE, "--iters=1", "--gabor=0.1,0.2", "-o", "-"]);
    assert!(joined.status.success() && spaced.stdout == joined.stdout);
    assert!(spaced.stdout != folder.run(&[PICTURE, "-o", "-"]).stdout);
}

#[test]
fn a_name_may_begin_with_a_hyphen_after_two() {
    let (folder, smooth) = with_picture("a_name_may_begin_with_a_hyphen_after_two");
    std::fs::rename(folder.0.join(PICTURE), folder.0.join("-o")).unwrap();
    let output = folder.run(&["--rect", RECT, "--", "-o"]);
    assert_eq!(output.stdout, b"wrote '-o-smoothed.pfm': 3 x 2 at 1, 0\n");
    assert!(folder.read("-o-smoothed.pfm") == smooth);
}

#[test]
fn what_is_wrong_with_standard_input() {
    let folder = Folder::new("what_is_wrong_with_standard_input");
    let expect = |input: &[u8], what| {
        folder.write(PICTURE, input);
        expect_line(
            &folder.run_on(PICTURE, &["-"]),
            &format!("standard input{what}"),
        );
        assert_eq!(folder.names(), [PICTURE]);
    };
    expect(b"", ": ends inside its header");
    expect(b"P6\n", ": not a PFM file: does not begin with PF or Pf");
    expect(b"PF\n1 1\n-1.0\n", ": has 0 of the 3 samples of 1 x 1");
    expect(b"Pf\n1 1\n-1.0\n", ": has 0 of the 1 samples of 1 x 1");
    let refused = " (0 x 1): a side, area, left or top is out of range (refusal 4)";
    expect(b"PF\n0 1\n-1.0\n", refused);
    let folder_as_input = folder.run_on(".", &["-"]);
    expect_line(
        &folder_as_input,
        "cannot read standard input: Is a directory",
    );
}

#[test]
fn standard_output_that_cannot_be_written() {
    let (folder, _) = with_picture("standard_output_that_cannot_be_written");
    let full = folder.run_after("exec \"$0\" \"$@\" >/dev/full", &[PICTURE, "-o", "-"]);
    expect_line(
        &full,
        "cannot write standard output: No space left on device",
    );
    // 1,020 bytes of samples after the last line end, in a file limited to 1,024: the last ones fail.
    folder.write(PICTURE, &pfm(5, 17, [0x3F00_0000; 255]));
    let script = "trap '' XFSZ; ulimit -f 1; exec \"$0\" \"$@\" >out.pfm";
    let words = [PICTURE, "--no-gabor", "--iters=0", "-o", "-"];
    let cut = folder.run_after(script, &words);
    expect_line(&cut, "cannot write standard output: File too large");
}

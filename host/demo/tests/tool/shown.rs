//! The tool without a picture, and what it prints about itself.

use std::{
    collections::BTreeSet,
    process::{Command, Output},
};

use crate::Folder;

/// The number before a word, in the line that begins with `line`.
fn number_before(said: &str, line: &str, word: &str) -> usize {
    let line = said.lines().find(|l| l.starts_with(line)).expect(line);
    let (before, _) = line.split_once(word).expect(word);
    let number = before.trim_end().rsplit(' ').next().unwrap();
    number.replace(',', "").parse().unwrap()
}

#[test]
fn rectangles_are_the_whole_and_a_smaller_margin_leaves_seams() {
    shown("shown", &["-o", "files"], "768 x 512, three planes", 3);
}

#[test]
fn the_same_of_a_grey_picture() {
    let words = ["--grey", "-o", "files"];
    shown("shown_grey", &words, "768 x 512, one plane", 1);
}

fn shown(test: &str, words: &[&str], sides: &str, planes: usize) {
    let folder = Folder::new(test);
    let output = folder.run(words);
    let said = String::from_utf8(output.stdout).unwrap();
    assert_eq!(output.status.code(), Some(0), "{said}");
    assert!(output.stderr.is_empty());
    assert!(said.lines().count() <= 12);
    assert!(
        said.starts_with(&format!("picture     {sides}: ")),
        "{said}"
    );
    let samples = planes * 768 * 512;
    assert_eq!(number_before(&said, "compared", "samples"), samples);
    let compared: Vec<_> = said
        .lines()
        .filter(|line| line.contains("bit by bit"))
        .collect();
    assert!(!compared.is_empty());
    assert!(
        compared.iter().all(|line| line.ends_with(": 0 differ")),
        "{said}"
    );
    assert!(number_before(&said, "margin 6", "samples wrong") > 0);
    for name in ["before.png", "after.png", "seams.png"] {
        assert_eq!(
            folder.read(&format!("files/{name}"))[..8],
            *b"\x89PNG\r\n\x1a\n"
        );
    }
    assert_eq!(folder.names(), ["files"]);
}

const USAGE: &[u8] = include_bytes!("../../usage.txt");
const VERSION: &str = concat!("demo ", env!("CARGO_PKG_VERSION"), "\n");

/// Expects these bytes on standard output, and nothing else.
fn expect_printed(folder: &Folder, output: &Output, printed: &[u8]) {
    assert_eq!(output.status.code(), Some(0));
    assert_eq!(output.stdout, printed);
    assert!(output.stderr.is_empty());
    assert!(folder.names().is_empty());
}

#[test]
fn help() {
    let folder = Folder::new("help");
    for words in [&["--help"][..], &["-h"], &["picture.pfm", "--help", "-x"]] {
        expect_printed(&folder, &folder.run(words), USAGE);
    }
}

#[test]
fn version() {
    let folder = Folder::new("version");
    for words in [&["--version"][..], &["picture.pfm", "--version", "-x"]] {
        expect_printed(&folder, &folder.run(words), VERSION.as_bytes());
    }
}

/// `./demo` prints both without building anything.
#[test]
fn the_script_prints_help_and_version() {
    let folder = Folder::new("the_script_prints_help_and_version");
    let printed = [
        ("--help", USAGE),
        ("-h", USAGE),
        ("--version", VERSION.as_bytes()),
    ];
    for (word, printed) in printed {
        let script = concat!(env!("CARGO_MANIFEST_DIR"), "/../../demo");
        let mut run = Command::new(script);
        // No cargo and no rt.
        run.current_dir(&folder.0)
            .env("PATH", "/usr/bin:/bin")
            .arg(word);
        expect_printed(&folder, &run.output().unwrap(), printed);
    }
}

/// Whether a word is `-x` or `--name`.
fn is_option(word: &str) -> bool {
    let name = word.trim_start_matches('-');
    let letters = name
        .bytes()
        .all(|byte| byte.is_ascii_lowercase() || byte == b'-');
    word.starts_with('-') && !name.is_empty() && letters && name != "inf"
}

/// The tool knows each option of the usage.
#[test]
fn the_usage_lists_options_that_exist() {
    let folder = Folder::new("the_usage_lists_options_that_exist");
    let usage = str::from_utf8(USAGE).unwrap();
    let words = usage.split([' ', '\n', ',', '[', ']']);
    let options: BTreeSet<&str> = words.filter(|word| is_option(word)).collect();
    assert!(options.len() >= 9, "{options:?}");
    for option in options {
        let output = folder.run(&[option]);
        let said = String::from_utf8(output.stderr).unwrap();
        assert!(!said.contains("unknown option"), "{said}");
    }
}

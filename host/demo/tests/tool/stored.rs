//! Where the tool writes, and what it leaves if it cannot.

use std::{
    fs,
    os::unix::fs::{FileTypeExt, PermissionsExt, symlink},
    process::Command,
};

use crate::{
    Folder, pfm,
    refused::{expect, expect_line},
};

const PICTURE: &str = "picture.pfm";
const OUT: &str = "out.pfm";
const COPY: [&str; 5] = [PICTURE, "--no-gabor", "--iters", "0", "-o"];
/// A file's content before the run.
const OLD: &[u8] = b"old";

/// A folder with a picture.
fn with_picture(test: &str) -> (Folder, Vec<u8>) {
    let folder = Folder::new(test);
    let file = pfm(20, 20, 0..1200);
    folder.write(PICTURE, &file);
    (folder, file)
}

/// Runs the tool, which copies the picture to a target.
fn copy(folder: &Folder, target: &str) {
    let output = folder.run(&[&COPY[..], &[target]].concat());
    let said = str::from_utf8(&output.stderr).unwrap();
    assert_eq!((output.status.code(), said), (Some(0), ""));
}

#[test]
fn a_file_that_was_there_stays() {
    let folder = Folder::new("a_file_that_was_there_stays");
    folder.write(PICTURE, b"PF\n5 4\n-1.0\n");
    folder.write(OUT, OLD);
    let line = "'picture.pfm': has 0 of the 60 samples of 5 x 4";
    expect(&folder, &[PICTURE, "-o", OUT], line);
    assert_eq!(folder.read(OUT), OLD);
}

#[test]
fn a_target_that_is_not_a_file_is_left_alone() {
    let (folder, _) = with_picture("a_target_that_is_not_a_file_is_left_alone");
    let made = Command::new("mkfifo").arg(folder.0.join("pipe")).status();
    assert!(made.unwrap().success());
    fs::create_dir(folder.0.join("folder")).unwrap();
    symlink("pipe", folder.0.join("to-pipe")).unwrap();
    symlink("nowhere", folder.0.join("to-nowhere")).unwrap();
    let refused = |target: &str, why| {
        let line = format!("cannot write '{target}': {why}");
        expect(&folder, &[PICTURE, "-o", target], &line);
    };
    for target in ["pipe", "folder", "to-pipe"] {
        refused(target, "not a regular file");
    }
    refused("to-nowhere", "No such file or directory");
    let kind = |name| {
        fs::symlink_metadata(folder.0.join(name))
            .unwrap()
            .file_type()
    };
    assert!(kind("pipe").is_fifo());
    assert!(kind("folder").is_dir());
    assert!(kind("to-pipe").is_symlink() && kind("to-nowhere").is_symlink());
}

#[test]
fn a_link_is_followed() {
    let (folder, file) = with_picture("a_link_is_followed");
    fs::create_dir(folder.0.join("elsewhere")).unwrap();
    folder.write("elsewhere/target.pfm", OLD);
    symlink("elsewhere/target.pfm", folder.0.join(OUT)).unwrap();
    copy(&folder, OUT);
    assert!(folder.0.join(OUT).is_symlink());
    assert_eq!(folder.read("elsewhere/target.pfm"), file);
    assert_eq!(folder.names(), ["elsewhere", OUT, PICTURE]);
    assert_eq!(
        Folder::names_in(&folder.0.join("elsewhere")),
        ["target.pfm"]
    );
}

#[test]
fn a_file_keeps_its_permissions() {
    let (folder, file) = with_picture("a_file_keeps_its_permissions");
    folder.write(OUT, OLD);
    for mode in [0o600, 0o664] {
        fs::set_permissions(folder.0.join(OUT), PermissionsExt::from_mode(mode)).unwrap();
        copy(&folder, OUT);
        let kept = fs::metadata(folder.0.join(OUT)).unwrap().permissions();
        assert_eq!(kept.mode() & 0o777, mode);
        assert_eq!(folder.read(OUT), file);
    }
}

/// 255 bytes are the longest name on the usual file systems.
#[test]
fn a_name_may_be_as_long_as_any() {
    let (folder, file) = with_picture("a_name_may_be_as_long_as_any");
    let target = "x".repeat(255);
    copy(&folder, &target);
    assert_eq!(folder.names(), [PICTURE, &target]);
    assert_eq!(folder.read(&target), file);
}

/// Files that can be written in part only, as on a full disk.
#[test]
fn no_part_of_a_file_is_left() {
    let (folder, _) = with_picture("no_part_of_a_file_is_left");
    folder.write(OUT, OLD);
    let names = folder.names();
    for (words, target) in [
        (&[PICTURE, "-o", OUT][..], OUT),
        (&[PICTURE], "picture-smoothed.pfm"),
        (&["-o", "."], "./before.png"),
        (&["-o", "new"], "new/before.png"),
    ] {
        let line = format!("cannot write '{target}': File too large");
        expect_line(&folder.run_with_short_files(words), &line);
        assert_eq!(folder.names(), names, "{words:?}");
    }
    assert_eq!(folder.read(OUT), OLD);
}

/// The three pictures are written all or none, whichever fails.
#[test]
fn of_three_pictures_none_is_changed_where_one_cannot_be_written() {
    let folder = Folder::new("of_three_pictures_none_is_changed_where_one_cannot_be_written");
    let pictures = ["after.png", "before.png", "seams.png"];
    for blocked in pictures {
        let path = folder.0.join(blocked);
        let other = pictures.into_iter().find(|&name| name != blocked).unwrap();
        fs::create_dir(&path).unwrap();
        folder.write(other, OLD);
        let line = format!("cannot write './{blocked}': not a regular file");
        expect(&folder, &["-o", "."], &line);
        assert!(path.is_dir());
        assert_eq!(folder.read(other), OLD);
        fs::remove_dir(path).unwrap();
        fs::remove_file(folder.0.join(other)).unwrap();
    }
}

#[test]
fn the_exit_status_is_set_if_no_line_can_be_printed() {
    let (folder, file) = with_picture("the_exit_status_is_set_if_no_line_can_be_printed");
    let refused = folder.run_unheard(&["absent.pfm"]);
    assert_eq!(refused.status.code(), Some(2));
    let copied = folder.run_unheard(&[&COPY[..], &[OUT]].concat());
    assert_eq!(copied.status.code(), Some(0));
    assert_eq!(folder.read(OUT), file);
}

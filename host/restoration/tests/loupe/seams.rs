//! Pictures of mixed groups: their filter region touches groups with a grid and groups without. They are cut at every
//! row and column of blocks, and both parts of a cut are run by themselves. Laid edge to edge beyond the margin they
//! have the whole run's samples (Specification 7.6, 13.6), and so have strips by the loupe.

use restoration::{BLOCK, Region, margin};

use crate::{
    CUT_RUNS, LOUPE,
    calls::{Nans, lay, part, same},
    pictures::{KINDS, PASSES, Picture},
    random::Random,
    report::Report,
};

/// The most groups of a frame per row and column.
const MOST: u32 = 4;
/// Pictures of each kind and number of groups with the same passes.
const EACH: u32 = 6;
/// Both kinds, all numbers of groups but a single one, and all passes with the EPF on.
pub const PICTURES: u64 = KINDS.len() as u64 * ((MOST * MOST - 1) * (PASSES - 2) * EACH) as u64;
/// Sides of pictures: at least three blocks.
const LEAST: u32 = 17;
const SIDE: usize = 48;
/// Rows or columns of the strips by the loupe.
const STRIPS: [u32; 3] = [1, 5, 8];

/// What was compared.
#[derive(Default)]
struct Counts {
    pictures: u64,
    cuts: u64,
    /// Cuts between rows of blocks of which a block below has no grid, and one above it in the whole has one. If
    /// missing grids took their sigmas from above, the part below would have others.
    below_grids: u64,
    strips: u64,
    samples: usize,
}

pub fn compare(report: &mut Report) {
    let mut random = Random::new(7);
    let mut counts = Counts::default();
    for (planes, groups) in KINDS.into_iter().flat_map(with_groups) {
        // The passes with the EPF on.
        for passes in (2..PASSES).flat_map(|passes| [passes; EACH as usize]) {
            let mut side = || LEAST + random.below(SIDE) as u32;
            let sides = (side(), side());
            let picture = Picture::of_mixed_groups(planes, passes, sides, groups, &mut random);
            if report.takes() {
                report.input();
                compare_picture(report, &picture, &mut counts);
            }
        }
    }
    let Counts {
        pictures,
        cuts,
        below_grids,
        strips,
        samples,
    } = counts;
    println!(
        "  {pictures} pictures of mixed groups: {cuts} cuts, {below_grids} of them below a grid and above a block without one; {strips} strips by the loupe; {samples} samples"
    );
    report.require("cuts below grids", below_grids, PICTURES / 4);
}

/// A number of planes with each number of groups per row and column, more than one in all.
fn with_groups(planes: u32) -> impl Iterator<Item = (u32, (u32, u32))> {
    let groups = (1..=MOST).flat_map(|across| (1..=MOST).map(move |down| (across, down)));
    let several = groups.filter(|groups| *groups != (1, 1));
    several.map(move |groups| (planes, groups))
}

/// Along an axis, the part of a region from one position, counted from its corner, to another.
type Along = fn(Region, u32, u32) -> Region;

fn rows(r: Region, from: u32, to: u32) -> Region {
    Region {
        top: r.top + from as i32,
        height: to - from,
        ..r
    }
}

fn columns(r: Region, from: u32, to: u32) -> Region {
    Region {
        left: r.left + from as i32,
        width: to - from,
        ..r
    }
}

fn compare_picture(report: &mut Report, picture: &Picture, counts: &mut Counts) {
    counts.pictures += 1;
    let whole = picture.smoothed();
    let [across, down] = picture.blocks();
    let Region { width, height, .. } = picture.whole;
    let axes: [(Along, u32, u32); 2] = [(rows, down, height), (columns, across, width)];
    for (along, blocks, side) in axes {
        for cut in (1..blocks).map(|block| BLOCK * block) {
            let laid = cut_runs(picture, along, side, cut);
            let agrees = same(&laid, &whole, Nans::Alike);
            report.call(CUT_RUNS, 0, (agrees, true), || {
                let start = along(picture.whole, cut, side);
                format!("{start:?} behind a cut of {}", shown(picture))
            });
            counts.cuts += 1;
            counts.samples += laid.len();
        }
        for strip in STRIPS {
            compare_strips(report, picture, &whole, (along, side, strip), counts);
        }
    }
    counts.below_grids += (1..down).filter(|&row| is_below_grid(picture, row)).count() as u64;
}

/// Some block of a row has no grid, and a block above it has one.
fn is_below_grid(picture: &Picture, row: u32) -> bool {
    let [across, _] = picture.blocks();
    (0..across)
        .any(|x| !picture.has_grid((x, row)) && (0..row).any(|above| picture.has_grid((x, above))))
}

/// The planes from two runs: one starts at the cut, and its samples are taken from the margin behind the cut on; the
/// other ends at twice the margin behind it and has those before.
fn cut_runs(picture: &Picture, along: Along, side: u32, cut: u32) -> Vec<f32> {
    let whole = picture.whole;
    let margin = margin(picture.settings).value().expect("settings in range");
    let seam = side.min(cut + margin);
    let mut laid = vec![0.0; picture.samples.len()];
    let mut piece = |run: Region, kept: Region| {
        let smoothed = picture.part(run).smoothed();
        lay(whole, &mut laid, kept, &part(run, &smoothed, kept));
    };
    piece(
        along(whole, 0, side.min(seam + margin)),
        along(whole, 0, seam),
    );
    if seam < side {
        piece(along(whole, cut, side), along(whole, seam, side));
    }
    laid
}

fn shown(picture: &Picture) -> String {
    let Picture {
        whole,
        planes,
        settings,
        frame,
        table,
        ..
    } = picture;
    format!("{whole:?}, planes: {planes}, in {frame:?}, {table:?}, {settings:?}")
}

/// Strips by the loupe, which together are the whole filter region.
fn compare_strips(
    report: &mut Report,
    picture: &Picture,
    whole: &[f32],
    (along, side, strip): (Along, u32, u32),
    counts: &mut Counts,
) {
    for from in (0..side).step_by(strip as usize) {
        let wanted = along(picture.whole, from, side.min(from + strip));
        let planes = |r| part(picture.whole, &picture.samples, r);
        let given = picture.loupe().smooth(wanted, planes);
        let expected = part(picture.whole, whole, wanted);
        let agrees = given.map(|given| same(&given, &expected, Nans::Alike));
        report.call(LOUPE, 0, (agrees, Ok(true)), || {
            format!("{wanted:?} of {}", shown(picture))
        });
        counts.strips += 1;
        counts.samples += expected.len();
    }
}

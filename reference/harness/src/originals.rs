//! Two originals: the unchanged one, and one whose carry is taken out (`oracle_uncarried`). Where some of the
//! groups that a filter region touches have a grid and others have none, the unchanged one repeats the sigma of
//! the block above and the library does not (docs/DIFFERENCES.md), so these pictures are compared with the other.
//! All others are compared with the unchanged one.

use std::sync::atomic::{AtomicU64, Ordering::Relaxed};

use oracle::{Edge, Frame, Place, Planes, Region, SigmaGrid, SigmaRows, Weights};
use oracle_uncarried as uncarried;

use crate::{
    convert::{wide, wide_frame},
    expected::sigma::touched_groups,
};

/// Settings of the edge filter, the frame, and its groups' grids.
pub type EdgeFilter<'a> = (Edge, Frame, &'a [Option<SigmaGrid>]);

/// How often each original was asked: the unchanged one, and the one without the carry.
static ASKED: [AtomicU64; 2] = [AtomicU64::new(0), AtomicU64::new(0)];

/// Some of the groups that a filter region on blocks touches have a grid, and some have none.
pub fn is_mixed<T>(filter: Region, frame: Frame, grids: &[Option<T>]) -> bool {
    let groups = touched_groups(wide_frame(frame), wide(filter));
    let mut present = groups.into_iter().map(|group| grids[group].is_some());
    let first = present.next();
    present.any(|other| Some(other) != first)
}

/// `sigma_rows` of the original that this picture is compared with.
pub fn sigma_rows(
    filter: Region,
    frame: Frame,
    grids: &[Option<SigmaGrid>],
    settings: Edge,
) -> SigmaRows {
    let mixed = is_mixed(filter, frame, grids);
    ASKED[usize::from(mixed)].fetch_add(1, Relaxed);
    if mixed {
        uncarried_sigma_rows(filter, frame, grids, settings)
    } else {
        oracle::sigma_rows(filter, frame, grids, settings)
    }
}

fn uncarried_sigma_rows(
    filter: Region,
    frame: Frame,
    grids: &[Option<SigmaGrid>],
    settings: Edge,
) -> SigmaRows {
    uncarried::sigma_rows(region(filter), sizes(frame), &groups(grids), edge(settings))
}

/// `filters` of the original that this picture is compared with.
pub fn filters(
    at: Place,
    weights: Option<Weights>,
    edge_filter: Option<EdgeFilter>,
    planes: Planes,
) -> Planes {
    let mixed = edge_filter.filter(|(_, frame, grids)| is_mixed(at.filter, *frame, grids));
    ASKED[usize::from(mixed.is_some())].fetch_add(1, Relaxed);
    match mixed {
        Some(edge_filter) => uncarried_filters(at, weights, edge_filter, planes),
        None => oracle::filters(at, weights, edge_filter, planes),
    }
}

fn uncarried_filters(
    at: Place,
    weights: Option<Weights>,
    (settings, frame, grids): EdgeFilter,
    planes: Planes,
) -> Planes {
    let grids = groups(grids);
    let edge_filter = (edge(settings), sizes(frame), &grids[..]);
    uncarried::filters(place(at), weights, Some(edge_filter), planes)
}

/// Prints how often each original was asked.
pub fn print_asked() {
    let [unchanged, without] = ASKED.each_ref().map(|count| count.load(Relaxed));
    println!("block sigmas, steps with them and runs, compared with the original:");
    println!("  unchanged: {unchanged}; without its carry, since groups are mixed: {without}");
}

/// Gabor-like passes over one row that either original has run.
pub fn one_row_gabor_passes() -> u64 {
    oracle::one_row_gabor_passes() + uncarried::one_row_gabor_passes()
}

fn region(r: Region) -> uncarried::Region {
    uncarried::Region {
        left: r.left,
        top: r.top,
        width: r.width,
        height: r.height,
    }
}

fn place(at: Place) -> uncarried::Place {
    uncarried::Place {
        image: region(at.image),
        filter: region(at.filter),
        preserve_outside: at.preserve_outside,
    }
}

fn sizes(frame: Frame) -> uncarried::Frame {
    uncarried::Frame {
        width: frame.width,
        height: frame.height,
        upsampling: frame.upsampling,
        lf_level: frame.lf_level,
        group_size_shift: frame.group_size_shift,
    }
}

fn groups(grids: &[Option<SigmaGrid>]) -> Vec<Option<uncarried::SigmaGrid>> {
    let grid = |grid: &SigmaGrid| uncarried::SigmaGrid {
        width: grid.width,
        height: grid.height,
        cells: grid.cells.clone(),
    };
    grids.iter().map(|given| given.as_ref().map(grid)).collect()
}

fn edge(settings: Edge) -> uncarried::Edge {
    uncarried::Edge {
        iters: settings.iters,
        sharp_lut: settings.sharp_lut,
        channel_scale: settings.channel_scale,
        sigma: uncarried::Sigma {
            quant_mul: settings.sigma.quant_mul,
            pass0_sigma_scale: settings.sigma.pass0_sigma_scale,
            pass2_sigma_scale: settings.sigma.pass2_sigma_scale,
            border_sad_mul: settings.sigma.border_sad_mul,
        },
        sigma_for_modular: settings.sigma_for_modular,
    }
}

#[cfg(test)]
mod tests {
    use restoration::PLANES;

    use super::*;
    use crate::{
        epf::textured,
        picture::{self, agree},
        random::Random,
        sigma::{Case, meeting, mixed},
    };

    /// Cases of each kind.
    const CASES: usize = 300;

    const PLAIN: Edge = Edge {
        iters: 3,
        sharp_lut: [0.0; 8],
        channel_scale: [40.0, 5.0, 3.5],
        sigma: oracle::Sigma {
            quant_mul: 0.46,
            pass0_sigma_scale: 0.9,
            pass2_sigma_scale: 6.5,
            border_sad_mul: 2.0 / 3.0,
        },
        sigma_for_modular: 1.0,
    };

    fn same_rows(a: &SigmaRows, b: &SigmaRows) -> bool {
        let alike = |a: &[f32], b: &[f32]| a.iter().zip(b).all(|(a, b)| agree(*a, *b));
        a.len() == b.len()
            && a.iter()
                .zip(b)
                .all(|(a, b)| a.0 == b.0 && alike(&a.1, &b.1))
    }

    fn settings(case: &Case) -> Edge {
        Edge {
            sigma_for_modular: case.modular,
            ..PLAIN
        }
    }

    /// Whether both originals have the same sigmas, and whether the same samples.
    fn both_agree(case: &Case, random: &mut Random) -> [bool; 2] {
        let (filter, frame, grids) = (case.filter(), case.frame, case.original_grids());
        let settings = settings(case);
        let rows = same_rows(
            &oracle::sigma_rows(filter, frame, &grids, settings),
            &uncarried_sigma_rows(filter, frame, &grids, settings),
        );
        let at = Place {
            image: filter,
            filter,
            preserve_outside: false,
        };
        let planes = picture::planes(&textured(picture::set_len(&at, PLANES), random));
        let edge_filter = (settings, frame, &grids[..]);
        let unchanged = oracle::filters(at, None, Some(edge_filter), planes.clone()).concat();
        let without = uncarried_filters(at, None, edge_filter, planes).concat();
        let samples = unchanged.iter().zip(&without).all(|(a, b)| agree(*a, *b));
        [rows, samples]
    }

    #[test]
    fn both_originals_agree_where_groups_are_not_mixed() {
        let random = &mut Random::for_name("originals");
        let cases = (0..).map(|n| (1 + n % 4, 1 + n / 4 % 4));
        let cases = cases.map(|groups| meeting(0, groups, false, &mut *random));
        let cases: Vec<Case> = cases.filter(|case| !case.is_mixed()).take(CASES).collect();
        for case in cases {
            assert_eq!(both_agree(&case, random), [true; 2], "{case:?}");
        }
    }

    #[test]
    fn they_differ_where_the_carry_shows() {
        let random = &mut Random::for_name("the carry");
        let cases: Vec<Case> = (0..CASES)
            .filter_map(|_| mixed(0, (1, 2), random))
            .collect();
        let differing = cases
            .iter()
            .filter(|case| both_agree(case, random) == [false; 2]);
        assert!(differing.count() > CASES / 10);
    }
}

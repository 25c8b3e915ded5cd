//! Specification 7.6 and 14.9 on the original without its carry, and the place of the inserted statement.

#[path = "../uncarried.rs"]
mod uncarried;

use oracle_uncarried::*;

const MODULAR: f32 = 0.5;

/// Two groups of 128 block rows, one above the other.
const FRAME: Frame = Frame {
    width: 8,
    height: 1_032,
    upsampling: 1,
    lf_level: 0,
    group_size_shift: 0,
};

fn grid(cells: &[f32]) -> Option<SigmaGrid> {
    Some(SigmaGrid {
        width: 1,
        height: cells.len(),
        cells: cells.to_vec(),
    })
}

/// The sigma of each row with three above and three below in block rows 127 and 128.
fn sigmas(grids: [Option<SigmaGrid>; 2]) -> Vec<f32> {
    let (settings, _) = parse_epf(&[1], 0, false).unwrap();
    let settings = Edge {
        sigma_for_modular: MODULAR,
        ..settings.unwrap()
    };
    let filter = Region {
        left: 0,
        top: 127 * 8,
        width: 8,
        height: 16,
    };
    let shown = sigma_rows(filter, FRAME, &grids, settings);
    let rows: Vec<usize> = shown.iter().map(|(row, _)| row - 127 * 8).collect();
    assert_eq!(rows, Vec::from_iter(3..13));
    shown.into_iter().map(|(_, sigmas)| sigmas[0]).collect()
}

/// Five rows of each block row.
fn of_rows(above: f32, below: f32) -> Vec<f32> {
    [[above; 5], [below; 5]].concat()
}

#[test]
fn a_missing_grid_gives_sigma_for_modular() {
    let cells: Vec<f32> = (0u8..128).map(f32::from).collect();
    assert_eq!(sigmas([grid(&cells), None]), of_rows(127.0, MODULAR));
    assert_eq!(sigmas([None, grid(&[3.0])]), of_rows(MODULAR, 3.0));
    assert_eq!(sigmas([grid(&cells), grid(&[3.0])]), of_rows(127.0, 3.0));
    assert_eq!(sigmas([None, None]), of_rows(MODULAR, MODULAR));
}

#[test]
fn the_statement_needs_exactly_one_place() {
    let place = "if let Some(grid) = x { y }";
    let inserted = uncarried::without_carry(place).unwrap();
    assert_eq!(
        inserted.strip_suffix(place),
        Some("*value = epf_params.sigma_for_modular; ")
    );
    assert_eq!(uncarried::without_carry("x"), None);
    assert_eq!(uncarried::without_carry(&place.repeat(2)), None);
}

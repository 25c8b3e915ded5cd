//! The Gabor-like filter on a filter region of one row (Specification 10.4, 14.7). Weights 1/2 and 1/4 make
//! every operation exact: the centre weighs 2, each neighbour 1, and an end 1 more; the kernel's sum is 4.

use restoration::{CHANNELS, GaborSettings, PLANES, Region, gabor_pass};

const SETTINGS: GaborSettings = GaborSettings::with_weights([[0.5, 0.25]; CHANNELS]);

/// The first plane after a pass over all rows of the image.
fn filtered(image: Region, filter: Region, plane: &[f32]) -> Vec<f32> {
    let source = [plane; CHANNELS].concat();
    let mut target = vec![-1.0; source.len()];
    let rows = image.height;
    let number = gabor_pass(
        image, filter, PLANES, 1, SETTINGS, 0, rows, &source, &mut target,
    );
    assert_eq!(number, 0);
    assert!(
        target
            .chunks(plane.len())
            .all(|other| other == &target[..plane.len()])
    );
    target.truncate(plane.len());
    target
}

fn row(plane: &[f32]) -> Vec<f32> {
    let image = Region::with_size(plane.len() as u32, 1);
    filtered(image, image, plane)
}

/// The original brightens it to 22.
#[test]
fn a_flat_strip_keeps_its_level() {
    for width in 1..=20 {
        assert_eq!(row(&vec![16.0; width]), vec![16.0; width]);
    }
}

#[test]
fn a_sample_spreads_to_its_neighbours() {
    assert_eq!(row(&[0.0, 16.0, 0.0]), [4.0, 8.0, 4.0]);
    assert_eq!(row(&[16.0, 0.0, 0.0]), [12.0, 4.0, 0.0]);
    assert_eq!(row(&[0.0, 0.0, 16.0]), [0.0, 4.0, 12.0]);
    assert_eq!(row(&[16.0, 0.0]), [12.0, 4.0]);
    assert_eq!(row(&[16.0]), [16.0]);
}

/// The filter region is one row high; the image around it is not, and keeps its samples.
#[test]
fn a_strip_inside_an_image() {
    let image = Region::with_size(4, 3);
    let filter = Region {
        left: 1,
        top: 1,
        width: 3,
        height: 1,
    };
    let plane = [1.0, 2.0, 3.0, 4.0, 5.0, 0.0, 16.0, 0.0, 6.0, 7.0, 8.0, 9.0];
    let mut expected = plane;
    expected[5..8].copy_from_slice(&[4.0, 8.0, 4.0]);
    assert_eq!(filtered(image, filter, &plane), expected);
}

/// One row of a higher filter region is no single row: a band of one row reads the rows around it.
#[test]
fn a_band_of_one_row_is_no_strip() {
    let image = Region::with_size(3, 2);
    let source = [[0.0, 16.0, 0.0, 0.0, 0.0, 0.0]; CHANNELS].concat();
    let mut target = vec![-1.0; source.len()];
    let number = gabor_pass(
        image, image, PLANES, 1, SETTINGS, 0, 1, &source, &mut target,
    );
    assert_eq!((number, &target[..3]), (0, &[3.0, 6.0, 3.0][..]));
}

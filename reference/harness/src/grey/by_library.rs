//! Accepted calls of the library on grey pictures.

use oracle::{Place, Weights};
use restoration::{
    EpfStep, GREY_PLANES, GaborSettings, Refusal, Region, Setup, Smoothing, accepted,
};

use crate::{
    convert::{frame, region},
    picture,
    runs::Input,
};

/// The target of a Gabor-like pass over all rows, zeros where nothing is written.
pub fn gabor(place: &Place, weights: Weights, source: &[f32]) -> Result<Vec<f32>, Refusal> {
    let mut target = vec![0.0; source.len()];
    let settings = GaborSettings::with_weights(weights);
    let (image, filter, full) = regions(place);
    let rows = picture::result(place).height;
    accepted(restoration::gabor_pass(
        image, filter, GREY_PLANES, full, settings, 0, rows, source, &mut target,
    ))?;
    Ok(target)
}

/// The same of an edge-preserving step.
pub fn step(
    place: &Place,
    step: EpfStep,
    sigmas: &[f32],
    source: &[f32],
) -> Result<Vec<f32>, Refusal> {
    let mut target = vec![0.0; source.len()];
    let (image, filter, full) = regions(place);
    let rows = picture::result(place).height;
    accepted(restoration::epf_pass(
        image, filter, GREY_PLANES, full, step, sigmas, 0, rows, source, &mut target,
    ))?;
    Ok(target)
}

/// The result of a whole run.
pub fn run(input: &Input) -> Result<Vec<f32>, Refusal> {
    let (table, grids) = (&input.table, &input.grids);
    let first = input.first.clone();
    Smoothing::start(input.setup, frame(input.frame), table, grids, first)?.finish()
}

/// A rectangle of the filter region of a picture.
pub fn loupe(input: &Input, wanted: Region) -> Result<Vec<f32>, Refusal> {
    let loupe = restoration::Loupe {
        whole: input.setup.filter,
        planes: input.setup.planes,
        settings: input.setup.settings,
        frame: frame(input.frame),
        table: &input.table,
        grids: &input.grids,
    };
    loupe.smooth(wanted, |part| {
        let Setup { planes, image, .. } = input.setup;
        crate::loupe::samples_in(planes, image, &input.first, part)
    })
}

fn regions(place: &Place) -> (Region, Region, u32) {
    let full = place.preserve_outside.into();
    (region(place.image), region(place.filter), full)
}

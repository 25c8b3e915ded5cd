//! Grey pictures beside a third of the original's time on three planes: it has no filters for one plane.

use std::{cell::RefCell, hint::black_box};

use restoration::{CHANNELS, GREY_PLANES, GaborSettings};

use super::{
    Picture, Times, best, best_timed, head,
    passes::{epf_pass, gabor_pass, gabor_source, original_gabor, original_step},
    rectangles::{Share, sigmas},
    run, smooth, timed,
};
use crate::{
    bits,
    epf::{DEFAULTS, step_of},
    gabor::DEFAULT_WEIGHTS,
    grey::zeros::{beside_zeros, first_of_three},
};

/// Every pass by itself and whole runs.
pub fn print(pictures: &[Picture], shares: &[Share]) {
    println!();
    head(&[
        "grey pass",
        "picture",
        "ours, ns",
        "a third of Rust, ns",
        "ratio",
    ]);
    for &picture in pictures {
        row("Gabor-like", picture, gabor(picture));
        for &(in_ten, name) in shares {
            let sigmas = sigmas(picture, in_ten);
            for step in 0..3 {
                let times = epf(step, picture, &sigmas);
                row(&format!("step {step}{name}"), picture, times);
            }
            row(
                &format!("whole run{name}"),
                picture,
                whole_run(picture, sigmas),
            );
        }
    }
}

/// A row with both times in ns per sample, ours of one plane and the original's of three.
fn row(name: &str, picture: Picture, times: Times) {
    let ours = times.ours / picture.plane() as f64;
    let theirs = times.theirs / picture.samples() as f64;
    let ratio = ours / theirs;
    println!("| {name} | {picture} | {ours:.2} | {theirs:.2} | {ratio:.2} |");
}

fn gabor(picture: Picture) -> Times {
    let source = gabor_source(picture);
    let weights = black_box(DEFAULT_WEIGHTS);
    let mut grey = vec![0.0; picture.plane()];
    let mut three = vec![0.0; picture.samples()];
    let times = best(
        || {
            let settings = GaborSettings::with_weights(weights);
            let source = &black_box(&source)[..picture.plane()];
            gabor_pass(picture.region(), GREY_PLANES, settings, source, &mut grey);
        },
        || original_gabor(picture, weights, black_box(&source), &mut three),
    );
    assert!(bits::same(&grey, &three[..grey.len()]), "the first plane");
    times
}

/// One edge-preserving step with the default settings. The samples are also those of the original where the
/// other planes are zeros.
fn epf(step: u32, picture: Picture, sigmas: &[f32]) -> Times {
    let source = smooth(picture.samples());
    let plane = &source[..picture.plane()];
    let settings = black_box(DEFAULTS);
    let grey = RefCell::new(vec![0.0; plane.len()]);
    let mut three = vec![0.0; source.len()];
    let ours = || {
        let (image, step) = (picture.region(), step_of(step, settings));
        let target = &mut grey.borrow_mut();
        epf_pass(image, GREY_PLANES, step, sigmas, black_box(plane), target);
    };
    let times = best(ours, || {
        original_step(
            step,
            settings,
            sigmas,
            picture,
            black_box(&source),
            &mut three,
        );
    });
    let mut first = settings;
    first.channel_scale[1..].fill(0.0);
    let beside = beside_zeros(plane);
    original_step(step, first, sigmas, picture, &beside, &mut three);
    let same = bits::same(&grey.borrow(), &three[..plane.len()]);
    assert!(same, "the first plane beside zeros");
    times
}

/// Start, all bands and advances, and the result, beside the original's run over three planes.
fn whole_run(picture: Picture, sigmas: Vec<f32>) -> Times {
    let mut three = run::input(picture);
    three.grids = sigmas;
    let given = three.clone().into_grey();
    let mut input = given.clone();
    let mut out = vec![0.0; three.first.len() / CHANNELS];
    let times = best_timed(
        || {
            input.first.copy_from_slice(&given.first);
            timed(|| run::with_result(black_box(&mut input), &mut out))
        },
        || timed(black_box(three.original_run())),
    );
    let same = bits::same(&out, &first_of_three(&given));
    assert!(same, "the first plane beside zeros");
    times
}

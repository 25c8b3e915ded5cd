//! Grey calls that differ only in the weights and scales of the other channels, which are NaNs in one of them:
//! the same bits.

use core::fmt::Debug;

use restoration::{GREY_PLANES, Refusal};

use super::{
    Picture, by_library,
    runs::{passes, unread},
};
use crate::{
    bits,
    epf::{self, step_of},
    gabor,
    random::Random,
    report::{Amount, Report, Row},
    runs,
};

/// Pictures of each kind of call, before `--scale`.
const PICTURES: u64 = 3_000;
/// Sides of pictures of runs and of the loupe.
const SIDES: u32 = 40;

const NAME: &str = "grey, unread";
const NAN: [f32; 2] = [f32::NAN; 2];

/// Compares a picture.
type One = fn(u64, &mut Random, &mut Row);
type Given = Result<Vec<f32>, Refusal>;

pub fn compare(amount: Amount, report: &mut Report) {
    let mut random = Random::for_name(NAME);
    let kinds: [(&str, One); 4] = [
        ("gabor", one_gabor),
        ("steps", one_step),
        ("whole runs", one_run),
        ("loupe", one_loupe),
    ];
    for (inputs, one) in kinds {
        let mut row = Row::new(NAME, inputs);
        for n in 0.. {
            if !row.draws(PICTURES, amount) {
                break;
            }
            one(n, &mut random, &mut row);
        }
        report.add(row);
    }
}

fn same(case: &dyn Debug, with_nans: &Given, without: &Given, row: &mut Row) {
    row.count(0);
    match (with_nans, without) {
        (Ok(a), Ok(b)) => {
            if let Some(at) = bits::first_change(a, b) {
                row.differs(&(case, at), &a[at], &b[at]);
            }
        }
        _ => row.differs(case, with_nans, without),
    }
}

fn one_gabor(n: u64, random: &mut Random, row: &mut Row) {
    let Picture { place, source, .. } = Picture::draw(n, GREY_PLANES, random);
    let weights = gabor::weights(random);
    let with_nans = [weights[0], NAN, NAN];
    let [a, b] = [with_nans, weights].map(|weights| by_library::gabor(&place, weights, &source));
    same(&(place, weights), &a, &b, row);
}

fn one_step(n: u64, random: &mut Random, row: &mut Row) {
    let picture = Picture::draw(n / 3, GREY_PLANES, random);
    let settings = epf::settings(random);
    let mut with_nans = settings;
    with_nans.channel_scale[1..].copy_from_slice(&NAN);
    let [a, b] = [with_nans, settings].map(|settings| {
        let step = step_of(n as u32 % 3, settings);
        by_library::step(&picture.place, step, &picture.sigmas, &picture.source)
    });
    same(&(picture.place, settings), &a, &b, row);
}

fn one_run(n: u64, random: &mut Random, row: &mut Row) {
    let input = runs::with_passes(passes(n), SIDES, random).into_grey();
    let mut with_nans = input.clone();
    unread(&mut with_nans.setup, random);
    let [a, b] = [&with_nans, &input].map(by_library::run);
    same(&input, &a, &b, row);
}

fn one_loupe(n: u64, random: &mut Random, row: &mut Row) {
    let input = runs::with_passes(passes(n), SIDES, random).into_grey();
    let mut with_nans = input.clone();
    unread(&mut with_nans.setup, random);
    let wanted = crate::loupe::wanted(input.setup.filter, random);
    let [a, b] = [&with_nans, &input].map(|input| by_library::loupe(input, wanted));
    same(&(&input, wanted), &a, &b, row);
}

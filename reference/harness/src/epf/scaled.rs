//! A step on pictures with all samples subnormal or near overflow.

use super::{Kind, Pass, block_count, tiled};
use crate::{
    pass::by_bands,
    picture,
    random::Random,
    report::{Amount, Report, Row},
    scaled::{ENDS, End},
    sigma::sigma,
};

/// Pictures for each end of the range, before `--scale`.
const PICTURES: u64 = 1_000;
/// Sides; some pictures have tiles that do not touch an edge.
const WIDEST: i128 = 180;
const HIGHEST: i128 = 24;

pub fn compare(kind: Kind, amount: Amount, random: &mut Random, report: &mut Report) {
    for end in ENDS {
        let mut row = Row::new(kind.name, end.name());
        while row.draws(PICTURES, amount) {
            one(end, kind, random, &mut row);
        }
        report.add(row);
    }
}

fn one(end: End, kind: Kind, random: &mut Random, row: &mut Row) {
    let scale = end.draw(random);
    let sides = (random.within(1, WIDEST), random.within(1, HIGHEST));
    let place = tiled::placed((sides.0 as u32, sides.1 as u32), random);
    let sigmas: Vec<f32> = (0..block_count(place.filter))
        .map(|_| sigma(random))
        .collect();
    let mut settings = kind.settings(random);
    if !random.once_in(3) {
        settings.channel_scale = scale.channel_scale(settings.channel_scale, random);
    }
    let band = tiled::band_height(picture::result(&place).height, random);
    let pass = Pass::of(kind, place, settings, &sigmas);
    let source = scale.samples(kind.set_len(&place), random);
    by_bands(&pass, band, &source, random, row);
}

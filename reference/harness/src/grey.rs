//! Grey pictures, which have one plane. The original has no filters for them, so they are compared with the
//! definition (`definition`), written from the Specification for any number of planes. That is compared with the
//! original on three planes (`original`). Beside it: the first plane of the original where the other planes
//! are zeros (`zeros`), and calls that differ only in weights and scales that are not read (`unread`).

mod by_library;
pub mod definition;
mod loupe;
mod original;
mod runs;
mod unread;
pub mod zeros;

use core::fmt::Debug;

use restoration::GREY_PLANES;

use crate::{
    epf::{self, Kind, block_count},
    gabor,
    picture::{self, agree},
    random::Random,
    report::{Amount, Report, Row},
    sigma::sigma,
};

const STEPS: [&str; 3] = ["grey step 0", "grey step 1", "grey step 2"];
/// Sides of small pictures, and of larger ones.
const SMALL: u64 = 20;
const LARGER: i128 = 130;

pub fn compare(amount: Amount, report: &mut Report) {
    original::compare(amount, report);
    let name = "grey gabor";
    let mut random = Random::for_name(name);
    gabor::accepted(name, GREY_PLANES, amount, &mut random, report);
    for (step, name) in (0..).zip(STEPS) {
        let planes = GREY_PLANES;
        epf::accepted(Kind { step, planes, name }, amount, report);
    }
    runs::compare(amount, report);
    loupe::compare(amount, report);
    zeros::compare(amount, report);
    unread::compare(amount, report);
}

/// A picture for one pass.
struct Picture {
    place: oracle::Place,
    sigmas: Vec<f32>,
    source: Vec<f32>,
}

impl Picture {
    /// Small pictures of every size in turn; one in ten is larger, of any size. The filter region is the whole
    /// image, inside it, or inside one with negative left and top.
    fn draw(n: u64, planes: u32, random: &mut Random) -> Self {
        let sides = if random.once_in(10) {
            let mut side = || random.within(1, LARGER) as u32;
            (side(), side())
        } else {
            let [width, height] = [n % SMALL, n / SMALL % SMALL].map(|side| side as u32 + 1);
            (width, height)
        };
        let places = epf::placements(sides, random);
        let place = random.one_of(&places);
        let blocks = block_count(place.filter);
        Self {
            place,
            sigmas: (0..blocks).map(|_| sigma(random)).collect(),
            source: epf::textured(picture::set_len(&place, planes), random),
        }
    }
}

/// Counts a case and compares its samples; all NaNs count as the same.
fn compare_samples(case: &dyn Debug, given: &[f32], expected: &[f32], row: &mut Row) {
    row.count(0);
    if given.len() != expected.len() {
        return row.differs(case, &given.len(), &expected.len());
    }
    let differing = given.iter().zip(expected).position(|(a, b)| !agree(*a, *b));
    if let Some(at) = differing {
        let bits = [given[at], expected[at]].map(f32::to_bits);
        row.differs(&(case, at), &bits[0], &bits[1]);
    }
}

#[cfg(test)]
mod tests {
    use super::*;
    use crate::{epf::step_of, runs::with_passes};

    /// Pictures of each test.
    const PICTURES: u64 = 200;

    /// How many differences a comparison of two samples finds.
    fn differing(given: &[f32], expected: &[f32]) -> u64 {
        let mut row = Row::new("samples", "two");
        compare_samples(&(), given, expected, &mut row);
        row.differing()
    }

    #[test]
    fn one_bit_of_a_sample_is_noticed() {
        let next = f32::from_bits(1f32.to_bits() + 1);
        assert_eq!(differing(&[1.0, f32::NAN], &[1.0, -f32::NAN]), 0);
        assert_eq!(differing(&[1.0, 1.0], &[1.0, next]), 1);
        assert_eq!(differing(&[0.0, 1.0], &[-0.0, 1.0]), 1);
        assert_eq!(differing(&[1.0], &[1.0, 1.0]), 1);
    }

    /// Pictures in which the library's step with this first scale differs from the definition's with 40.
    fn with_scale(step: u32, scale: f32) -> u64 {
        let random = &mut Random::for_name("a scale");
        let mut row = Row::new("a scale", STEPS[step as usize]);
        for n in 0..PICTURES {
            let picture = Picture::draw(n, GREY_PLANES, random);
            let Picture {
                place,
                sigmas,
                source,
            } = &picture;
            let defined = step_of(step, epf::DEFAULTS);
            let mut given = defined;
            given.channel_scale[0] = scale;
            let mut target = vec![0.0; source.len()];
            let planes = vec![source.clone()];
            let expected = definition::epf_pass(place, defined, sigmas, planes);
            let rows = (0, picture::result(place).height);
            picture::store(place, &expected, rows, &mut target);
            let given = by_library::step(place, given, sigmas, source).expect("accepted");
            compare_samples(place, &given, &target, &mut row);
        }
        row.differing()
    }

    #[test]
    fn another_scale_is_noticed() {
        let next = f32::from_bits(40f32.to_bits() + 1);
        for step in 0..3 {
            assert_eq!(with_scale(step, 40.0), 0);
            assert!(with_scale(step, next) > PICTURES / 4);
            assert!(with_scale(step, 5.0) > PICTURES / 4);
        }
    }

    /// A run with the scale, or the weights, of the second channel.
    #[test]
    fn settings_of_another_channel_are_noticed() {
        let random = &mut Random::for_name("another channel");
        let mut rows = [Row::new("runs", "scales"), Row::new("runs", "weights")];
        for n in 0..PICTURES {
            let input = with_passes(runs::passes(n), LARGER as u32, random).into_grey();
            let expected = input.defined();
            let mut scales = input.clone();
            scales.setup.settings.epf.channel_scale.swap(0, 1);
            let mut weights = input;
            weights.setup.settings.gabor.weights.swap(0, 1);
            for (wrong, row) in [scales, weights].iter().zip(&mut rows) {
                let given = by_library::run(wrong).expect("accepted");
                compare_samples(&n, &given, &expected, row);
            }
        }
        for row in rows {
            assert!(row.differing() > PICTURES / 8);
        }
    }
}

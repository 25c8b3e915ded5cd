//! Block sigmas from a frame's grids and then all steps of 1 to 3 iterations, band by band, against
//! `apply_epf`. Where groups are mixed that is the one without its carry, and again the unchanged one after its
//! missing grids are filled in.

use restoration::{BLOCK, Blocks, MAX_GROUP_SIZE_SHIFT, MAX_ITERS, PLANES};

use super::{
    BANDS, DEFAULTS, Pass, SIDES, around, placements, settings, textured, two_samples, whole_images,
};
use crate::{
    originals,
    pass::Pass as _,
    picture::{self, compare_answer, is_written, samples},
    random::Random,
    report::{Amount, Report, Row},
    sigma::{self, Case},
};

/// Random pictures, and pictures of mixed groups, before `--scale`.
const PICTURES: u64 = 3_000;
const MIXED: u64 = 2_000;
/// Sides of random pictures.
const LARGEST: u32 = 48;

const NAME: &str = "apply_epf";

pub fn compare(amount: Amount, report: &mut Report) {
    let mut random = Random::for_name(NAME);
    let mut row = Row::new(NAME, "named");
    named(&mut random, &mut row);
    report.add(row);
    let mut row = Row::new(NAME, "all sizes");
    for width in 1..=SIDES {
        for height in 1..=SIDES {
            all_placements((width, height), amount, &mut random, &mut row);
        }
    }
    report.add(row);
    let mut row = Row::new(NAME, "instances");
    for shift in 0..=MAX_GROUP_SIZE_SHIFT {
        for case in sigma::one_above_the_other(shift, &mut random) {
            random_steps(&case, &mut random, &mut row);
        }
    }
    report.add(row);
    let mut row = Row::new(NAME, "groups meet");
    for shift in (0..40).cycle().map(sigma::seldom_large) {
        if !row.draws(PICTURES, amount) {
            break;
        }
        where_groups_meet(shift, &mut random, &mut row);
    }
    report.add(row);
    mixed_groups(amount, &mut random, report);
}

/// Two samples with each named sigma, from a grid and from `sigma_for_modular`.
fn named(random: &mut Random, row: &mut Row) {
    let frame = sigma::frame(0, (1, 1), random);
    let blocks = Blocks {
        left: 0,
        top: 0,
        width: 2,
        height: 1,
    };
    for (sigma, source) in two_samples() {
        let (other, given) = (1.0, sigma);
        let present = (vec![1, 1, 1], vec![given], other);
        let missing = (vec![0, 0, 0], vec![], given);
        for (table, grids, modular) in [present, missing] {
            let case = Case {
                frame,
                blocks,
                table,
                grids,
                modular,
            };
            for place in whole_images(2, 1) {
                for iterations in 1..=MAX_ITERS {
                    let steps = Steps::new(&case, place, (iterations, DEFAULTS), 1);
                    steps.check(source.clone(), random, row);
                }
            }
        }
    }
}

/// Every placement in a frame of one group, with every number of iterations.
fn all_placements((width, height): (u32, u32), amount: Amount, random: &mut Random, row: &mut Row) {
    for place in placements((width, height), random) {
        for iterations in 1..=MAX_ITERS {
            if !row.takes(amount) {
                continue;
            }
            let blocks = Blocks {
                left: place.filter.left as u32 / BLOCK,
                top: place.filter.top as u32 / BLOCK,
                width,
                height,
            };
            let frame = sigma::frame(0, (1, 1), random);
            let case = sigma::filled(frame, blocks, (1, 1), false, random);
            let band = random.within(1, BANDS.into()) as u32;
            let steps = Steps::new(&case, place, (iterations, settings(random)), band);
            let source = textured(picture::set_len(&place, PLANES), random);
            steps.check(source, random, row);
        }
    }
}

fn where_groups_meet(shift: u32, random: &mut Random, row: &mut Row) {
    let groups = any_groups(shift, random);
    let case = smaller(sigma::meeting(shift, groups, false, random));
    random_steps(&case, random, row);
}

fn any_groups(shift: u32, random: &mut Random) -> (u32, u32) {
    let mut groups = || random.within(1, sigma::GROUPS[shift as usize].into()) as u32;
    (groups(), groups())
}

/// With sides of at most [`LARGEST`]. The grids hold fewer blocks as well.
fn smaller(mut case: Case) -> Case {
    case.blocks.width = case.blocks.width.min(LARGEST);
    case.blocks.height = case.blocks.height.min(LARGEST);
    case
}

/// Each picture twice: as it is, and beside the unchanged original with the missing grids filled in.
fn mixed_groups(amount: Amount, random: &mut Random, report: &mut Report) {
    let mut row = Row::new(NAME, "mixed groups");
    let mut filled = Row::new(NAME, "grids filled in");
    let (mut draws, mut pictures) = (0, 0);
    for shift in (0..40).cycle().map(sigma::seldom_large) {
        if !row.draws(MIXED, amount) {
            break;
        }
        draws += 1;
        let groups = any_groups(shift, random);
        let case = sigma::mixed(shift, groups, random).map(smaller);
        if let Some(case) = case.filter(Case::is_mixed) {
            pictures += 1;
            random_steps(&case, random, &mut row);
            with_image(&case, random, |steps, source, random| {
                steps.check_filled(source, random, &mut filled);
            });
        }
    }
    // Some draws give a picture of which no part of a group without a grid is left.
    row.at_least("pictures of mixed groups", pictures, draws / 2);
    for row in [row, filled] {
        report.add(row);
    }
}

/// The filter region of a case, in an image around it.
fn random_steps(case: &Case, random: &mut Random, row: &mut Row) {
    with_image(case, random, |steps, source, random| {
        steps.check(source, random, row);
    });
}

/// All steps over the filter region of a case, in an image around it.
fn with_image(
    case: &Case,
    random: &mut Random,
    compare: impl FnOnce(Steps, Vec<f32>, &mut Random),
) {
    let place = oracle::Place {
        image: around(case.filter(), random),
        filter: case.filter(),
        preserve_outside: random.once_in(2),
    };
    let iterations = random.within(1, MAX_ITERS.into()) as u32;
    let band = random.within(1, 64) as u32;
    let steps = Steps::new(case, place, (iterations, settings(random)), band);
    let source = textured(picture::set_len(&place, PLANES), random);
    compare(steps, source, random);
}

/// The inputs of all steps without the sets.
#[derive(Debug)]
struct Steps<'a> {
    case: &'a Case,
    place: oracle::Place,
    settings: oracle::Edge,
    band: u32,
}

impl<'a> Steps<'a> {
    fn new(
        case: &'a Case,
        place: oracle::Place,
        (iterations, settings): (u32, oracle::Edge),
        band: u32,
    ) -> Self {
        let settings = oracle::Edge {
            iters: iterations,
            sigma_for_modular: case.modular,
            ..settings
        };
        Self {
            case,
            place,
            settings,
            band,
        }
    }

    /// Compares with the original that the case is compared with.
    fn check(&self, source: Vec<f32>, random: &mut Random, row: &mut Row) {
        row.of_groups(self.case.is_mixed());
        let grids = self.case.original_grids();
        let edge_filter = (self.settings, self.case.frame, &grids[..]);
        let planes = picture::planes(&source);
        let original = originals::filters(self.place, None, Some(edge_filter), planes);
        self.compare(source, original, random, row);
    }

    /// Compares with the unchanged original, which has `sigma_for_modular` in each cell of a missing grid.
    fn check_filled(&self, source: Vec<f32>, random: &mut Random, row: &mut Row) {
        let (grids, planes) = (self.case.filled_grids(), picture::planes(&source));
        let original = oracle::epf(self.place, self.case.frame, &grids, self.settings, planes);
        self.compare(source, original, random, row);
    }

    fn compare(
        &self,
        source: Vec<f32>,
        original: oracle::Planes,
        random: &mut Random,
        row: &mut Row,
    ) {
        let before = samples(source.len(), random);
        let (number, ours) = self.run([source, before.clone()]);
        let mut expected = before;
        let rows = (0, picture::result(&self.place).height);
        picture::store(&self.place, &original, rows, &mut expected);
        let written = |at| is_written(&self.place, rows, at);
        compare_answer(self, rows, (number, &ours), (0, &expected), &written, row);
    }

    /// The largest number that a call answered, and the set that the last step wrote. Each step reads the
    /// first set and overwrites the second, which has the samples from before.
    fn run(&self, mut sets: [Vec<f32>; 2]) -> (u32, Vec<f32>) {
        let before = sets[1].clone();
        let mut sigmas = vec![0.0; self.case.count()];
        let mut number = self.case.ours(1, &mut sigmas);
        let steps: &[u32] = [&[1][..], &[1, 2], &[0, 1, 2]][self.settings.iters as usize - 1];
        for &step in steps {
            let pass = Pass {
                place: self.place,
                planes: PLANES,
                full: self.place.preserve_outside.into(),
                step,
                settings: self.settings,
                sigmas: &sigmas,
            };
            let [read, written] = &mut sets;
            written.copy_from_slice(&before);
            for from in (0..pass.height()).step_by(self.band as usize) {
                let rows = (from, pass.height().min(from + self.band));
                number = number.max(pass.ours(rows, read, written));
            }
            sets.swap(0, 1);
        }
        let [last, _] = sets;
        (number, last)
    }
}

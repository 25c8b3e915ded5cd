//! Whole runs of pictures with all samples subnormal or near overflow.

use super::{SMALL, calls::Tally, draw, whole};
use crate::{
    random::Random,
    report::{Amount, Report, Row},
    scaled::ENDS,
};

/// Runs for each end of the range, before `--scale`.
const RUNS: u64 = 2_000;

pub fn compare(amount: Amount, random: &mut Random, report: &mut Report, tally: &mut Tally) {
    for end in ENDS {
        let mut row = Row::new("whole runs", end.name());
        while row.draws(RUNS, amount) {
            let scale = end.draw(random);
            let mut input = draw::picture(SMALL, random);
            input.first = scale.samples(input.first.len(), random);
            if !random.once_in(3) {
                let epf = &mut input.setup.settings.epf;
                epf.channel_scale = scale.channel_scale(epf.channel_scale, random);
            }
            whole(input, random, &mut row, tally);
        }
        report.add(row);
    }
}

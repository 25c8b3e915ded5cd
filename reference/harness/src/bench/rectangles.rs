//! Pictures of the sizes that the loupe filters, with none, half and nine in ten of their blocks copied, and whole
//! runs of larger ones.

use super::{
    COLUMNS, COPIED, FILTERED, Picture, grey, head,
    passes::{epf, gabor},
    row, run,
};
use crate::random::Random;

const PICTURES: [Picture; 4] = [
    Picture::square(64),
    Picture::square(96),
    Picture::new(143, 111),
    Picture::new(256, 192),
];
/// Pictures of whole runs with copied blocks; without any they are among the passes.
const LARGE: [Picture; 2] = [Picture::square(504), Picture::square(2040)];

/// How many blocks of ten are copied, and the end of the row's name.
pub type Share = (usize, &'static str);
pub const SHARES: [Share; 3] = [(0, ""), (5, ", half copied"), (9, ", nine in ten copied")];

/// Every pass by itself and whole runs; the same on grey pictures.
pub fn print() {
    head(&COLUMNS);
    for picture in PICTURES {
        row("Gabor-like", picture, gabor(picture));
        for share in SHARES {
            steps(picture, share);
            whole_run(picture, share);
        }
    }
    for picture in LARGE {
        for &share in &SHARES[1..] {
            whole_run(picture, share);
        }
    }
    grey::print(&PICTURES, &SHARES);
}

fn steps(picture: Picture, (in_ten, name): Share) {
    let sigmas = sigmas(picture, in_ten);
    for step in 0..3 {
        let times = epf(step, picture, &sigmas);
        row(&format!("step {step}{name}"), picture, times);
    }
}

fn whole_run(picture: Picture, (in_ten, name): Share) {
    let mut given = run::input(picture);
    given.grids = sigmas(picture, in_ten);
    let times = run::beside_original(&given);
    row(&format!("whole run{name}"), picture, times);
}

/// One sigma per block, the same for every pass of a picture. The share that is copied, rounded down, is at random
/// places.
pub fn sigmas(picture: Picture, in_ten: usize) -> Vec<f32> {
    let mut random = Random::for_name("bench rectangles");
    let blocks = picture.block_count();
    let mut copied = blocks * in_ten / 10;
    let mut sigma = |blocks_after: usize| {
        if random.within(0, blocks_after as i128) < copied as i128 {
            copied -= 1;
            COPIED
        } else {
            FILTERED
        }
    };
    (0..blocks).rev().map(&mut sigma).collect()
}

#[cfg(test)]
mod tests {
    use super::*;

    #[test]
    fn sigmas_have_the_share_of_copied_blocks() {
        let picture = Picture::new(143, 111);
        assert_eq!(picture.block_count(), 18 * 14);
        for (in_ten, copied) in [(0, 0), (5, 126), (9, 226), (10, 252)] {
            let sigmas = sigmas(picture, in_ten);
            assert_eq!(sigmas.len(), 252);
            assert_eq!(sigmas.iter().filter(|&&s| s == COPIED).count(), copied);
        }
    }
}

//! How the cost of a whole run grows with the area.

use super::{Picture, head, plot, run};

const SIDES: [u32; 7] = [64, 128, 256, 504, 1020, 2040, 4080];
const PLOT: &str = "docs/cost.svg";

/// One row per picture, and the plot of all.
pub fn print() {
    head(&[
        "picture",
        "ours, ms",
        "Rust, ms",
        "ours, ns per sample",
        "Rust, ns per sample",
        "ratio",
    ]);
    let costs = SIDES.map(|side| {
        let picture = Picture::square(side);
        let times = run::beside_original(&run::input(picture));
        let per_sample = times.per_sample(picture);
        println!(
            "| {picture} | {:.2} | {:.2} | {:.1} | {:.1} | {:.2} |",
            times.ours / 1e6,
            times.theirs / 1e6,
            per_sample.ours,
            per_sample.theirs,
            times.ratio()
        );
        (side, times)
    });
    match std::fs::write(PLOT, plot::svg(&costs)) {
        Ok(()) => println!("\nThe plot is {PLOT}."),
        Err(error) => println!("\nNo plot: {PLOT}: {error}"),
    }
}

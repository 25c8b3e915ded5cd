//! Times of the proved library and of the original, on the same buffers in one process, and the memory
//! of a run. Each section prints tables of docs/BENCHMARKS.md.

mod cut;
mod grey;
mod growth;
mod loupe;
mod memory;
mod passes;
mod plot;
mod rectangles;
mod run;

use std::{
    fmt,
    hint::black_box,
    time::{Duration, Instant},
};

use restoration::{BLOCK, CHANNELS, Region};

use crate::random::Random;

/// How long each case is run; the best time of each side counts.
const PER_CASE: Duration = Duration::from_secs(2);
const FEWEST_RUNS: u32 = 9;

/// A sigma with which blocks are filtered, and one with which they are copied.
const FILTERED: f32 = 1.5;
const COPIED: f32 = 0.1;

/// The columns of passes beside the original's.
const COLUMNS: [&str; 5] = ["pass", "picture", "ours, ns", "Rust, ns", "ratio"];

/// Memory is measured first, before the other sections allocate.
const SECTIONS: [(&str, fn()); 8] = [
    ("memory", memory::print),
    ("passes", passes::print),
    ("cases", passes::print_cases),
    ("rectangles", rectangles::print),
    ("runs", run::print),
    ("growth", growth::print),
    ("loupe", loupe::print),
    ("cut", cut::print),
];

/// Prints the named sections, or all of them; false if there is no such section.
pub fn print(names: &[&str]) -> bool {
    let known = |name: &&str| SECTIONS.iter().any(|(section, _)| section == name);
    if !names.iter().all(known) {
        return false;
    }
    for (section, print) in SECTIONS {
        if names.is_empty() || names.contains(&section) {
            println!("\n{section}\n");
            print();
        }
    }
    true
}

/// The names of all sections.
pub fn sections() -> [&'static str; SECTIONS.len()] {
    SECTIONS.map(|(section, _)| section)
}

/// A picture of a table; it has three planes.
#[derive(Clone, Copy)]
struct Picture {
    width: u32,
    height: u32,
}

impl Picture {
    const fn new(width: u32, height: u32) -> Self {
        Self { width, height }
    }

    const fn square(side: u32) -> Self {
        Self::new(side, side)
    }

    /// Samples of one plane.
    fn plane(self) -> usize {
        self.width as usize * self.height as usize
    }

    /// Samples of all planes.
    fn samples(self) -> usize {
        CHANNELS * self.plane()
    }

    /// Blocks across and down.
    fn blocks(self) -> (u32, u32) {
        (self.width.div_ceil(BLOCK), self.height.div_ceil(BLOCK))
    }

    fn block_count(self) -> usize {
        let (across, down) = self.blocks();
        (across * down) as usize
    }

    fn region(self) -> Region {
        Region::with_size(self.width, self.height)
    }
}

impl fmt::Display for Picture {
    fn fmt(&self, f: &mut fmt::Formatter) -> fmt::Result {
        write!(f, "{} × {}", self.width, self.height)
    }
}

/// The shortest time of each side, in ns.
#[derive(Clone, Copy)]
struct Times {
    ours: f64,
    theirs: f64,
}

impl Times {
    /// In ns per sample of all planes.
    fn per_sample(self, picture: Picture) -> Self {
        let samples = picture.samples() as f64;
        Self {
            ours: self.ours / samples,
            theirs: self.theirs / samples,
        }
    }

    fn ratio(self) -> f64 {
        self.ours / self.theirs
    }
}

/// Runs both alternately.
fn best(mut ours: impl FnMut(), mut theirs: impl FnMut()) -> Times {
    best_timed(|| timed(&mut ours), || timed(&mut theirs))
}

/// Runs both alternately. Each answers its time itself, so that its preparations do not count.
fn best_timed(mut ours: impl FnMut() -> f64, mut theirs: impl FnMut() -> f64) -> Times {
    let mut times = Times {
        ours: f64::INFINITY,
        theirs: f64::INFINITY,
    };
    let began = Instant::now();
    let mut runs = 0;
    while runs < FEWEST_RUNS || began.elapsed() < PER_CASE {
        times.ours = times.ours.min(ours());
        times.theirs = times.theirs.min(theirs());
        runs += 1;
    }
    times
}

/// The time of a run in ns; its answer is dropped afterwards.
fn timed<T>(run: impl FnOnce() -> T) -> f64 {
    let start = Instant::now();
    let answer = black_box(run());
    let time = start.elapsed().as_secs_f64() * 1e9;
    drop(answer);
    time
}

/// The head of a table with these columns.
fn head(columns: &[&str]) {
    println!("| {} |", columns.join(" | "));
    println!("|{}", "---|".repeat(columns.len()));
}

/// A row with both times in ns per sample of all planes.
fn row(name: &str, picture: Picture, times: Times) {
    let times = times.per_sample(picture);
    println!(
        "| {name} | {picture} | {:.2} | {:.2} | {:.2} |",
        times.ours,
        times.theirs,
        times.ratio()
    );
}

/// Samples that differ little, so that neighbours have weight.
fn smooth(count: usize) -> Vec<f32> {
    let mut random = Random::for_name("bench epf");
    (0..count)
        .map(|_| 0.5 + random.within(0, 1 << 20) as f32 / (1 << 26) as f32)
        .collect()
}

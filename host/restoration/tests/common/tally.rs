//! Counts of rectangles that are compared with runs over the whole picture.

/// The rectangles of a comparison.
#[derive(Default)]
pub struct Tally {
    /// Rectangles compared with whole runs, and their samples.
    compared: u64,
    samples: usize,
    /// Those of them with at least one pass and a widened rectangle smaller than the whole.
    cut: u64,
}

impl Tally {
    /// Counts a rectangle that is compared with a whole run.
    pub fn add(&mut self, samples: usize, cut: bool) {
        self.compared += 1;
        self.samples += samples;
        self.cut += u64::from(cut);
    }

    pub fn summary(&self) -> String {
        format!(
            "{} rectangles ({} samples) compared with whole runs, {} filtered from a part of the picture",
            self.compared, self.samples, self.cut
        )
    }

    /// Names of counts, the counts, and their minimums where this many rectangles are drawn. At least nine in
    /// ten are compared with whole runs and at least half are cut: a few are refused because they start past the
    /// limit, and some need the whole picture.
    pub fn required(&self, drawn: u64) -> [(&'static str, u64, u64); 2] {
        [
            (
                "rectangles compared with whole runs",
                self.compared,
                drawn * 9 / 10,
            ),
            ("rectangles filtered from a part", self.cut, drawn / 2),
        ]
    }
}

//! How far a run is.

/// How far a run is: passes that are over, and bands of the next one. [`crate::Smoothing::progress`]
/// answers it.
///
/// ```
/// use restoration::Progress;
/// // The second of three passes, with one band of four done.
/// let progress = Progress { passes_over: 1, passes: 3, bands_left: 3, bands: 4 };
/// assert_eq!((progress.bands_over(), progress.bands_in_all()), (5, 12));
/// assert!(!progress.finished());
/// ```
#[derive(Debug, Clone, Copy, PartialEq, Eq)]
pub struct Progress {
    pub passes_over: u32,
    /// Passes in all.
    pub passes: u32,
    /// How many bands of this pass are not done; 0 if the run is finished.
    pub bands_left: u32,
    /// Bands of a pass.
    pub bands: u32,
}

impl Progress {
    pub const fn finished(&self) -> bool {
        self.passes_over == self.passes
    }

    /// Bands of all passes together, 0 without passes.
    pub const fn bands_in_all(&self) -> u32 {
        self.passes * self.bands
    }

    /// How many of them are done.
    pub const fn bands_over(&self) -> u32 {
        if self.finished() {
            return self.bands_in_all();
        }
        self.passes_over * self.bands + self.bands - self.bands_left
    }
}

//! Rectangles of cut files.

use restoration::{MAX_OFFSET, Region};

use crate::random::Random;

/// The numbers of planes that a file may have.
pub const PLANES: [u32; 2] = [1, 3];

/// How many samples these rectangles have in so many planes.
pub fn sample_count(rectangles: &[Region], planes: u32) -> usize {
    let areas: usize = rectangles.iter().map(|r| r.area()).sum();
    planes as usize * areas
}

impl Random {
    /// Up to 64 small rectangles anywhere.
    pub fn rectangles(&mut self) -> Vec<Region> {
        let count = match self.below(8) {
            0 => 64,
            1 => 1 + self.below(64),
            _ => 1 + self.below(5),
        };
        (0..count).map(|_| self.rectangle()).collect()
    }

    pub fn rectangle(&mut self) -> Region {
        let (width, height) = match self.below(16) {
            0 => (1 + self.below(300), 1),
            1 => (1, 1 + self.below(300)),
            _ => (1 + self.below(4), 1 + self.below(4)),
        };
        Region {
            left: self.offset(),
            top: self.offset(),
            width: width as u32,
            height: height as u32,
        }
    }

    /// A left or a top within the limits.
    fn offset(&mut self) -> i32 {
        let any = self.below(2 * MAX_OFFSET as usize + 1) as i32 - MAX_OFFSET;
        self.one_of(&[0, -1, 255, 256, MAX_OFFSET, -MAX_OFFSET, any, any])
    }
}

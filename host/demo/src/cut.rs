//! Smoothed rectangles in a cut file.

use restoration::{CutTable, PLANES, Refusal, Region, accepted};

use crate::{number::grouped, picture::Picture};

/// A cut file, and what reading it back showed.
pub struct Cut {
    pub bytes: Vec<u8>,
    rectangles: usize,
    samples: usize,
    differing: usize,
}

impl Cut {
    /// Writes these rectangles and reads them back.
    pub fn new(rectangles: &[Picture]) -> Result<Self, Refusal> {
        Self::read_back(bytes(rectangles)?, rectangles)
    }

    /// Reads a file that was written of these rectangles.
    fn read_back(bytes: Vec<u8>, rectangles: &[Picture]) -> Result<Self, Refusal> {
        let back = rectangles_of(&bytes)?;
        Ok(Self {
            bytes,
            rectangles: back.len(),
            samples: back.iter().map(|r| r.planes.len()).sum(),
            differing: differing(rectangles, &back),
        })
    }

    pub fn agrees(&self) -> bool {
        self.differing == 0
    }

    pub fn summary(&self) -> String {
        let (bytes, samples) = (grouped(self.bytes.len()), grouped(self.samples));
        let (count, differing) = (counted(self.rectangles), self.differing);
        format!(
            "{count}, {bytes} bytes; {samples} samples read back, bit by bit: {differing} differ"
        )
    }
}

/// `1 rectangle`, `2 rectangles`.
pub fn counted(rectangles: usize) -> String {
    let plural = if rectangles == 1 { "" } else { "s" };
    format!("{rectangles} rectangle{plural}")
}

/// Whether a file can hold these rectangles of so many planes: the library decides, before they are
/// smoothed.
pub fn check(rectangles: &[Region], planes: u32) -> Result<(), Refusal> {
    restoration::cut_length(CutTable::new(rectangles), planes).value()?;
    Ok(())
}

fn bytes(rectangles: &[Picture]) -> Result<Vec<u8>, Refusal> {
    let regions: Vec<Region> = rectangles.iter().map(|r| r.region).collect();
    let samples: Vec<f32> = rectangles.iter().flat_map(|r| &r.planes).copied().collect();
    let table = CutTable::new(&regions);
    // No rectangle at all is refused whatever the number of planes.
    let planes = rectangles.first().map_or(PLANES, Picture::plane_count);
    let mut file = vec![0; restoration::cut_length(table, planes).value()?];
    accepted(restoration::write_cut_samples(
        table, planes, &samples, &mut file,
    ))?;
    Ok(file)
}

fn rectangles_of(file: &[u8]) -> Result<Vec<Picture>, Refusal> {
    let rectangle = |k| {
        let (region, count) = restoration::cut_region(file, k).value()?;
        let mut planes = vec![0.0; count as usize * region.area()];
        restoration::read_cut_samples(file, k, &mut planes).value()?;
        Ok(Picture { region, planes })
    };
    (0..restoration::cut_count(file).value()?)
        .map(rectangle)
        .collect()
}

/// How many samples have other bits; all those of a rectangle with another region or number of planes.
fn differing(given: &[Picture], back: &[Picture]) -> usize {
    let other = |(a, b): (&f32, &f32)| a.to_bits() != b.to_bits();
    let differ = |(given, back): (&Picture, &Picture)| {
        if given.region != back.region || given.planes.len() != back.planes.len() {
            return given.planes.len();
        }
        let samples = given.planes.iter().zip(&back.planes);
        samples.filter(|samples| other(*samples)).count()
    };
    assert_eq!(given.len(), back.len());
    given.iter().zip(back).map(differ).sum()
}

#[cfg(test)]
mod tests {
    use super::*;
    use crate::picture::at_corner;

    /// A quiet NaN with a payload.
    const NAN: u32 = 0x7FC0_0001;
    /// In the file: the left of the second rectangle, the first sample, the end.
    const LEFT: usize = 6 + 16 + 4;
    const BODIES: usize = 6 + 2 * 16;
    const LENGTH: usize = BODIES + 4 * 9;

    /// 1 × 1 and 2 × 1, whose first sample is a NaN.
    fn rectangles() -> [Picture; 2] {
        let picture = |width, bits: &[u32]| Picture {
            region: at_corner(width, 1),
            planes: bits.iter().copied().map(f32::from_bits).collect(),
        };
        [
            picture(1, &[0, 1, 2]),
            picture(2, &[NAN, 0, 0x3F80_0000, 3, 4, 5]),
        ]
    }

    /// Their file with these bits of a byte changed, read back.
    fn with(at: usize, bits: u8) -> Cut {
        let mut file = bytes(&rectangles()).unwrap();
        file[at] ^= bits;
        Cut::read_back(file, &rectangles()).unwrap()
    }

    fn expect(cut: &Cut, differing: usize) {
        assert_eq!(cut.differing, differing);
        assert_eq!(cut.agrees(), differing == 0);
        let summary = format!(
            "2 rectangles, {LENGTH} bytes; 9 samples read back, bit by bit: {differing} differ"
        );
        assert_eq!(cut.summary(), summary);
    }

    #[test]
    fn none_of_equal_ones_counts() {
        expect(&Cut::new(&rectangles()).unwrap(), 0);
        assert_eq!(differing(&rectangles(), &rectangles()), 0);
    }

    #[test]
    fn one_bit_of_one_sample_counts() {
        for at in BODIES..LENGTH {
            for bit in 0..8 {
                expect(&with(at, 1 << bit), 1);
            }
        }
    }

    #[test]
    fn a_nan_with_another_payload_counts() {
        let mut back = rectangles();
        back[1].planes[0] = f32::from_bits(NAN ^ 2);
        assert!(back[1].planes[0].is_nan());
        assert_eq!(differing(&rectangles(), &back), 1);
        expect(&with(BODIES + 12, 2), 1);
    }

    /// The first planes alone are a file of one plane, which has its own marker.
    #[test]
    fn one_plane() {
        let grey = rectangles().map(|mut r| {
            r.planes.truncate(r.region.area());
            r
        });
        let cut = Cut::new(&grey).unwrap();
        assert_eq!((cut.bytes.len(), cut.agrees()), (BODIES + 4 * 3, true));
        assert_eq!(cut.bytes[..4], *b"KCU1");
        assert_eq!(bytes(&rectangles()).unwrap()[..4], *b"KCUT");
        // Those of the other file are three times as many, and none of them is compared.
        assert_eq!(differing(&rectangles(), &grey), 9);
        assert_eq!(differing(&grey, &rectangles()), 3);
    }

    /// Elsewhere, or with other sides, as many samples as it has.
    #[test]
    fn another_region_counts() {
        expect(&with(LEFT, 1), 6);
        let mut back = rectangles();
        back[0].region.top = -1;
        assert_eq!(differing(&rectangles(), &back), 3);
        back[1].region = at_corner(1, 2);
        assert_eq!(differing(&rectangles(), &back), 9);
    }
}

//! Planes and their region: three, or the one of a grey picture.

use restoration::{CHANNELS, Region};

/// Planes of a region, one after another, each row after row from the top.
#[derive(Clone)]
pub struct Picture {
    pub region: Region,
    pub planes: Vec<f32>,
}

impl Picture {
    /// How many planes it has.
    pub fn plane_count(&self) -> u32 {
        (self.planes.len() / self.region.area()) as u32
    }

    /// The part in a region inside this one, without a copy if it is all of it.
    pub fn into_part(self, part: Region) -> Self {
        if part == self.region {
            return self;
        }
        self.cut(part)
    }

    /// A copy of the part in a region inside this one.
    pub fn cut(&self, part: Region) -> Self {
        let planes = self
            .rows(part)
            .flat_map(|row| &self.planes[row])
            .copied()
            .collect();
        Self {
            region: part,
            planes,
        }
    }

    /// Lays a part where it belongs.
    pub fn lay(&mut self, part: &Self) {
        let given = part.planes.chunks_exact(part.region.width as usize);
        for (row, given) in self.rows(part.region).zip(given) {
            self.planes[row].copy_from_slice(given);
        }
    }

    /// Where each row of a part lies, plane after plane.
    fn rows(&self, part: Region) -> impl Iterator<Item = core::ops::Range<usize>> + use<> {
        let [width, height] = [self.region.width, self.region.height].map(|side| side as usize);
        let left = part.left.abs_diff(self.region.left) as usize;
        let top = part.top.abs_diff(self.region.top) as usize;
        let [columns, rows] = [part.width, part.height].map(|side| side as usize);
        (0..self.plane_count() as usize)
            .flat_map(move |c| (0..rows).map(move |row| (c * height + top + row) * width + left))
            .map(move |start| start..start + columns)
    }

    /// The samples of each pixel, one per channel: in a grey picture they are equal.
    pub fn pixels(&self) -> impl Iterator<Item = [f32; CHANNELS]> {
        let (area, count) = (self.region.area(), self.plane_count() as usize);
        let sample = move |c: usize, at: usize| self.planes[c % count * area + at];
        (0..area).map(move |at| core::array::from_fn(|c| sample(c, at)))
    }

    /// The samples of a row, counted from the top, pixel by pixel.
    pub fn row(&self, y: u32) -> impl Iterator<Item = f32> {
        let (area, width) = (self.region.area(), self.region.width as usize);
        let row = y as usize * width..(y as usize + 1) * width;
        let planes = 0..self.plane_count() as usize;
        row.flat_map(move |at| planes.clone().map(move |c| self.planes[c * area + at]))
    }
}

/// A region of this width and height at the corner of all pictures.
pub fn at_corner(width: u32, height: u32) -> Region {
    Region {
        left: 0,
        top: 0,
        width,
        height,
    }
}

/// The same bits, or two NaNs.
fn agree(a: f32, b: f32) -> bool {
    a.to_bits() == b.to_bits() || a.is_nan() && b.is_nan()
}

/// How many samples differ.
pub fn differing(a: &[f32], b: &[f32]) -> usize {
    assert_eq!(a.len(), b.len());
    a.iter().zip(b).filter(|(a, b)| !agree(**a, **b)).count()
}

#[cfg(test)]
mod tests {
    use super::*;

    /// Two columns and two rows; each plane's samples have its own hundreds.
    fn picture(planes: u8) -> Picture {
        let plane = |c: u8| (0..4).map(move |at| f32::from(c) * 100.0 + at as f32);
        Picture {
            region: at_corner(2, 2),
            planes: (0..planes).flat_map(plane).collect(),
        }
    }

    #[test]
    fn rows_and_pixels_of_three_planes_and_of_one() {
        let (three, grey) = (picture(3), picture(1));
        assert_eq!((three.plane_count(), grey.plane_count()), (3, 1));
        assert!(three.row(1).eq([2.0, 102.0, 202.0, 3.0, 103.0, 203.0]));
        assert!(grey.row(1).eq([2.0, 3.0]));
        assert_eq!(three.pixels().nth(2), Some([2.0, 102.0, 202.0]));
        assert_eq!(grey.pixels().nth(2), Some([2.0; 3]));
        assert_eq!((three.pixels().count(), grey.pixels().count()), (4, 4));
    }

    #[test]
    fn parts_have_as_many_planes() {
        let part = Region {
            left: 1,
            ..at_corner(1, 2)
        };
        for planes in [3, 1] {
            let mut whole = picture(planes);
            let mut cut = whole.cut(part);
            assert_eq!(cut.plane_count(), planes.into());
            assert_eq!(cut.planes[..2], [1.0, 3.0]);
            cut.planes.fill(-1.0);
            whole.lay(&cut);
            let laid = [0.0, -1.0, 2.0, -1.0];
            let expected = (0..planes)
                .flat_map(|c| laid.map(|x| if x < 0.0 { x } else { f32::from(c) * 100.0 + x }));
            assert!(whole.planes.iter().copied().eq(expected));
        }
    }
}

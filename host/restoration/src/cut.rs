//! Cut files: finished rectangles of a picture as bytes.

use core::slice;

use crate::{
    MAX_RECTANGLES, Region,
    boundary::{answers, entries},
};

/// The rectangles of a cut file: the first `count` of the regions.
#[repr(C)]
#[derive(Debug, Clone, Copy, PartialEq, Eq)]
pub struct CutTable {
    pub count: u32,
    pub regions: [Region; MAX_RECTANGLES],
}

impl CutTable {
    /// The table of these rectangles. A table of none or of more than [`MAX_RECTANGLES`] is refused by
    /// the calls that take it.
    pub fn new(rectangles: &[Region]) -> Self {
        let mut regions = [Region::default(); MAX_RECTANGLES];
        for (region, rectangle) in regions.iter_mut().zip(rectangles) {
            *region = *rectangle;
        }
        Self {
            count: u32::try_from(rectangles.len()).unwrap_or(u32::MAX),
            regions,
        }
    }
}

answers! {
    CountAnswer { count: u32 }
    CutAnswer { region: Region, planes: u32 }
    LengthAnswer { length: usize }
}

entries! {
    /// How many rectangles a cut file has. All of the file but its samples is checked.
    cut_count = restoration_cut_count(file: &[u8]) -> CountAnswer;

    /// The region of rectangle k, counted from 0, and the number of planes, 1 or 3.
    cut_region = restoration_cut_region(file: &[u8], k: u32) -> CutAnswer;

    /// The region of rectangle k and the number of planes, and its samples as bit patterns.
    /// [`read_cut_samples`] takes floats.
    read_cut = restoration_read_cut(file: &[u8], k: u32, samples: &mut [u32]) -> CutAnswer;

    /// The length of the file that a table needs with this number of planes, 1 or 3, in bytes.
    cut_length = restoration_cut_length(table: CutTable, planes: u32) -> LengthAnswer;

    /// Writes a cut file from samples as bit patterns, rectangle after rectangle. [`write_cut_samples`]
    /// takes floats.
    write_cut = restoration_write_cut(
        table: CutTable, planes: u32, samples: &[u32], file: &mut [u8]
    ) -> u32;
}

/// [`read_cut`] into floats, with their bits and without a copy.
///
/// ```
/// use restoration::{CutTable, Region, accepted};
///
/// let table = CutTable::new(&[Region::with_size(2, 1)]);
/// let samples = [0.0, 1.0, 2.0, 3.0, 4.0, f32::NAN];
/// // Three planes of two samples, or one plane of a grey picture.
/// for (planes, samples) in [(3, &samples[..]), (1, &samples[4..])] {
///     let mut file = vec![0; restoration::cut_length(table, planes).value()?];
///     accepted(restoration::write_cut_samples(table, planes, samples, &mut file))?;
///
///     assert_eq!(restoration::cut_count(&file).value()?, 1);
///     let found = restoration::cut_region(&file, 0).value()?;
///     assert_eq!(found, (Region::with_size(2, 1), planes));
///     let mut back = vec![0.0; planes as usize * found.0.area()];
///     restoration::read_cut_samples(&file, 0, &mut back).value()?;
///     assert!(back.iter().map(|x| x.to_bits()).eq(samples.iter().map(|x| x.to_bits())));
/// }
/// assert_eq!(restoration::cut_length(table, 2).value(), Err(restoration::Refusal::OutOfRange));
/// # Ok::<(), restoration::Refusal>(())
/// ```
#[must_use = "the number alone says whether the call was refused"]
pub fn read_cut_samples(file: &[u8], k: u32, samples: &mut [f32]) -> CutAnswer {
    read_cut(file, k, bits_mut(samples))
}

/// [`write_cut`] from floats, with their bits and without a copy.
#[must_use = "the number alone says whether the call was refused"]
pub fn write_cut_samples(table: CutTable, planes: u32, samples: &[f32], file: &mut [u8]) -> u32 {
    write_cut(table, planes, bits(samples), file)
}

/// The bit patterns of samples.
fn bits(samples: &[f32]) -> &[u32] {
    // SAFETY: f32 and u32 have the same size and alignment, every bit pattern is a value of both, and
    // the slice has the lifetime of the one that it views.
    unsafe { slice::from_raw_parts(samples.as_ptr().cast(), samples.len()) }
}

fn bits_mut(samples: &mut [f32]) -> &mut [u32] {
    // SAFETY: as in `bits`; while the view lives, the samples are borrowed and nothing else uses them.
    unsafe { slice::from_raw_parts_mut(samples.as_mut_ptr().cast(), samples.len()) }
}

const _: () =
    assert!(size_of::<f32>() == size_of::<u32>() && align_of::<f32>() == align_of::<u32>());

#[cfg(test)]
mod tests {
    use super::*;

    #[test]
    fn a_view_has_the_bits_of_its_samples() {
        let patterns = [0, 1, 0x7F80_0001, 0x7FC0_0000, 0xFFFF_FFFF, 0x8000_0000];
        let mut samples = patterns.map(f32::from_bits);
        assert_eq!(bits(&samples), patterns);
        bits_mut(&mut samples)[0] = 0xFF80_0001;
        assert_eq!(samples[0].to_bits(), 0xFF80_0001);
        assert!(bits(&[]).is_empty());
    }

    #[test]
    fn a_table_counts_rectangles_that_it_has_no_room_for() {
        let rectangles = [Region::with_size(2, 3); MAX_RECTANGLES + 1];
        let table = CutTable::new(&rectangles);
        assert_eq!(table.count as usize, MAX_RECTANGLES + 1);
        assert_eq!(table.regions, rectangles[1..]);
        assert_eq!(CutTable::new(&[]).count, 0);
    }
}

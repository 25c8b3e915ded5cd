//! Writing cut files.

use restoration::{CutTable, MAX_RECTANGLES, Region, cut_length, write_cut, write_cut_samples};

use crate::{
    LENGTH, WRITE, expected,
    random::Random,
    rectangles::{PLANES, sample_count},
    report::Report,
};

pub const TABLES: u32 = 200_000;

/// Tables of every kind with slices of right and wrong lengths. Several things may be wrong at once, so that
/// the order of the checks is tested: 12, 4, 7, 9.
pub fn tables(report: &mut Report) {
    let mut random = Random::new(6);
    for _ in 0..TABLES {
        if !report.takes() {
            continue;
        }
        let rectangles = random.rectangles();
        let mut table = CutTable::new(&rectangles);
        let mut planes = random.one_of(&PLANES);
        let mut samples = sample_count(&rectangles, planes);
        let mut length = 6 + 16 * rectangles.len() + 4 * samples;
        if random.once_in(8) {
            // Regions past the count are ignored.
            table.regions[rectangles.len()..].fill(random_bad(&mut random));
        }
        if random.once_in(8) {
            table.regions[random.below(rectangles.len())] = large(&mut random);
        }
        if random.once_in(8) {
            table.regions[random.below(rectangles.len())] = random_bad(&mut random);
        }
        if random.once_in(8) {
            let count = table.count;
            table.count = random.one_of(&[0, 65, 256, 65_536 + count, u32::MAX]);
        }
        if random.once_in(8) {
            samples = random.one_of(&[0, 1, samples - 1, samples + 1, 3 * samples]);
        }
        if random.once_in(8) {
            length = random.one_of(&[0, 6, length - 1, length + 1, length + 16, length + 12]);
        }
        if random.once_in(8) {
            // The slices keep the lengths of one plane or three.
            planes = random.one_of(&[0, 1, 2, 2, 3, 4, 256 + planes, u32::MAX]);
        }
        let samples = random.patterns(samples);
        let file = (0..length).map(|_| random.next() as u8).collect();
        compare(report, &table, planes, &samples, file);
    }
}

/// A region within the limits, with which the file is too long or nearly so.
fn large(random: &mut Random) -> Region {
    let (width, height) = random.one_of(&[
        (4096, 4096),
        (16_384, 1024),
        (1024, 16_384),
        (16_384, 85),
        (1183, 1182),
        (4096, 400),
    ]);
    Region::with_size(width, height)
}

/// A region with one field or its area beyond the limits.
fn random_bad(random: &mut Random) -> Region {
    let mut r = random.rectangle();
    let offset = [1_048_577, -1_048_577, i32::MIN, i32::MAX];
    let side = [0, 16_385, 65_535, 65_536, 65_536 + r.width, u32::MAX];
    match random.below(5) {
        0 => r.left = random.one_of(&offset),
        1 => r.top = random.one_of(&offset),
        2 => r.width = random.one_of(&side),
        3 => r.height = random.one_of(&side),
        _ => (r.width, r.height) = random.one_of(&[(4097, 4096), (1025, 16_384), (16_384, 16_384)]),
    }
    r
}

/// Compares the length of a table's file, and the bytes after writing to them, which it returns.
pub fn compare(
    report: &mut Report,
    table: &CutTable,
    planes: u32,
    samples: &[u32],
    file: Vec<u8>,
) -> Vec<u8> {
    report.input();
    let shown = || {
        let regions = &table.regions[..MAX_RECTANGLES.min(table.count as usize)];
        let (samples, bytes) = (samples.len(), file.len());
        format!(
            "{} {regions:?}, {planes} planes, {samples} samples, {bytes} bytes",
            table.count
        )
    };
    let expected = expected::length(table, planes);
    report.call(
        LENGTH,
        expected.number,
        (cut_length(*table, planes), expected),
        shown,
    );

    let mut left = file.clone();
    let number = expected::write(table, planes, samples, &mut left);
    let mut given = file.clone();
    let answer = write_cut(*table, planes, samples, &mut given);
    report.call(WRITE, number, ((answer, &given), (number, &left)), shown);

    // The same from floats.
    let floats: Vec<f32> = samples.iter().copied().map(f32::from_bits).collect();
    let mut given = file.clone();
    let answer = write_cut_samples(*table, planes, &floats, &mut given);
    report.call(WRITE, number, ((answer, &given), (number, &left)), shown);
    given
}

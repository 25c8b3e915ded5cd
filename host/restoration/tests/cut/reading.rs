//! Reading cut files.

use restoration::{CutAnswer, CutTable, Region, cut_count, cut_region, read_cut, read_cut_samples};

use crate::{
    COUNT, READ, REGION, WRITE, damage,
    expected::{self, written},
    random::Random,
    rectangles::{PLANES, sample_count},
    report::Report,
    writing,
};

pub const DAMAGED: u32 = 1_000_000;
/// Files of each count of rectangles and each number of planes.
const FILES: u64 = 4;
/// Rectangles of these files, and for each file three numbers past the last.
pub const WHOLE: u64 = 2 * FILES * (64 * 65 / 2 + 64 * 3);
/// Lengths of each of 65 files of each number of planes.
pub const LENGTHS: u64 = 2 * 65 * 201;
/// Values of each byte of a file of 162 and of one of 90.
pub const BYTES: u64 = (162 + 90) * 256;

/// Files of every count, of one plane and of three. Each rectangle is read, and some numbers past the last.
pub fn whole(report: &mut Report) {
    let mut random = Random::new(1);
    for count in 1..=64 {
        for planes in PLANES.repeat(FILES as usize) {
            let rectangles: Vec<Region> = (0..count).map(|_| random.rectangle()).collect();
            let patterns = random.patterns(sample_count(&rectangles, planes));
            let table = CutTable::new(&rectangles);
            let file = written(&rectangles, planes, &patterns);
            writing::compare(report, &table, planes, &patterns, vec![0xA5; file.len()]);
            for k in (0..=count).chain([65_536, u32::MAX]) {
                if report.takes() {
                    compare(report, &mut random, &file, k);
                }
            }
        }
    }
}

/// Files of three rectangles and of 1 to 64 of one position each, cut short or with more bytes after them.
pub fn lengths(report: &mut Report) {
    let mut random = Random::new(2);
    let single = |count: usize, planes: u32| {
        let rectangles = vec![Region::with_size(1, 1); count];
        written(&rectangles, planes, &vec![9; planes as usize * count])
    };
    let files = PLANES.into_iter().flat_map(|planes| {
        let singles = (1..=64).map(move |count| single(count, planes));
        [three(planes)].into_iter().chain(singles)
    });
    for file in files {
        for length in (0..=200).filter(|_| report.takes()).collect::<Vec<_>>() {
            let mut file = file.clone();
            file.resize(length, random.one_of(&[0, 0, 255]));
            let k = random.below(file.get(4).map_or(1, |&count| usize::from(count) + 2));
            compare(report, &mut random, &file, k as u32);
        }
    }
}

/// Each byte of a file of three rectangles replaced by every value.
pub fn bytes(report: &mut Report) {
    let mut random = Random::new(3);
    for file in PLANES.map(three) {
        for at in 0..file.len() {
            for byte in (0..=255).filter(|_| report.takes()).collect::<Vec<_>>() {
                let mut file = file.clone();
                file[at] = byte;
                let k = random.below(4) as u32;
                compare(report, &mut random, &file, k);
            }
        }
    }
}

/// Three rectangles in 162 bytes, or of one plane in 90.
fn three(planes: u32) -> Vec<u8> {
    let at = |left, top, r| Region { left, top, ..r };
    let rectangles = [
        at(-3, 1, Region::with_size(2, 2)),
        at(1_048_576, -1_048_576, Region::with_size(3, 1)),
        at(0, 255, Region::with_size(1, 2)),
    ];
    let samples = sample_count(&rectangles, planes);
    written(&rectangles, planes, &Random::new(4).patterns(samples))
}

pub fn damaged(report: &mut Report) {
    let mut random = Random::new(5);
    for _ in 0..DAMAGED {
        if !report.takes() {
            continue;
        }
        let file = damage::file(&mut random);
        let count = file.get(4).map_or(0, |&count| u32::from(count));
        let inside = random.below(count.max(1) as usize) as u32;
        let k = match random.below(16) {
            0 => count,
            1 => random.one_of(&[64, 65_536 + inside, inside | 1 << 31, u32::MAX]),
            _ => inside,
        };
        compare(report, &mut random, &file, k);
    }
}

/// Compares all that is read of a file and of its rectangle k. An accepted file is written again.
fn compare(report: &mut Report, random: &mut Random, file: &[u8], k: u32) {
    report.input();
    let shown = || format!("rectangle {k} of {} bytes {file:?}", file.len());
    let found = expected::read(file);
    let read = found.as_ref().map_err(|number| *number);

    let answer = compare_table(report, file, read, k, shown);
    let length = slice_length(random, answer);
    let samples = random.patterns(length);
    let (mut given, mut left) = (samples.clone(), samples.clone());
    let expected = expected::samples(file, read, k, &mut left);
    let answer = read_cut(file, k, &mut given);
    let number = expected.number;
    report.call(READ, number, ((answer, &given), (expected, &left)), shown);

    // The same into floats.
    let mut floats: Vec<f32> = samples.into_iter().map(f32::from_bits).collect();
    let answer = read_cut_samples(file, k, &mut floats);
    let given: Vec<u32> = floats.into_iter().map(f32::to_bits).collect();
    report.call(READ, number, ((answer, &given), (expected, &left)), shown);

    if let Ok(found) = read {
        // Writing what was read gives the same file (Specification 16.9).
        let regions: Vec<Region> = found.rectangles.iter().map(|r| r.region).collect();
        let (samples, _) = file[6 + 16 * regions.len()..].as_chunks::<4>();
        let samples: Vec<u32> = samples.iter().copied().map(u32::from_le_bytes).collect();
        let table = CutTable::new(&regions);
        let again = writing::compare(report, &table, found.planes, &samples, vec![0; file.len()]);
        report.call(WRITE, 0, (&again[..], file), shown);
    }
}

/// Compares the count of a file and the region of its rectangle k with the number of planes, which it returns: zeros if
/// it is refused.
pub fn compare_table(
    report: &mut Report,
    file: &[u8],
    read: expected::Read,
    k: u32,
    shown: impl Fn() -> String,
) -> CutAnswer {
    let expected = expected::count(read);
    report.call(COUNT, expected.number, (cut_count(file), expected), &shown);
    let expected = expected::region(read, k);
    let answers = (cut_region(file, k), expected);
    report.call(REGION, expected.number, answers, &shown);
    expected
}

/// The number of samples of a rectangle, and sometimes another one: that of the other number of planes too.
fn slice_length(random: &mut Random, answer: CutAnswer) -> usize {
    let samples = sample_count(&[answer.region], answer.planes);
    match random.below(8) {
        0 => random.one_of(&[
            0,
            samples + 1,
            samples.saturating_sub(1),
            samples / 3,
            2 * samples,
            3 * samples,
        ]),
        1 if samples == 0 => random.below(20),
        _ => samples,
    }
}

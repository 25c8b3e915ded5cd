//! The longest files. A file of n rectangles with a samples per plane has 6 + 16 n + 12 a bytes, which is 2, 6 or
//! 10 modulo 12, and 16,777,216 is 4. So the longest file has 16,777,214 bytes, and the next longer one 16,777,218.
//! A file of one plane has 6 + 16 n + 4 a bytes, which is 2 modulo 4: its longest and next longer lengths are the same.

use restoration::{CutTable, MAX_CUT_FILE, Region, read_cut};

use crate::{
    READ,
    expected::{self, written},
    random::Random,
    reading::compare_table,
    rectangles::sample_count,
    report::Report,
    writing,
};

/// Numbers of planes, and how many slices are compared with each.
const OF_PLANES: [u32; 6] = [0, 1, 2, 3, 4, u32::MAX];
pub const SLICES: u64 = 6 * OF_PLANES.len() as u64;
/// How many lengths past the limit are read.
pub const PAST: usize = 1_100;

pub fn longest(report: &mut Report) {
    let mut random = Random::new(7);
    let most = [Region::with_size(1024, 1365), Region::with_size(338, 1)];
    let over = [
        Region::with_size(1024, 1365),
        Region::with_size(336, 1),
        Region::with_size(1, 1),
    ];
    let grey_most = [Region::with_size(4096, 1023), Region::with_size(4086, 1)];
    let grey_over = [Region::with_size(4096, 1023), Region::with_size(4087, 1)];
    for (rectangles, planes, length) in [
        (&most[..], 3, MAX_CUT_FILE - 2),
        (&over, 3, MAX_CUT_FILE + 2),
        (&grey_most, 1, MAX_CUT_FILE - 2),
        (&grey_over, 1, MAX_CUT_FILE + 2),
    ] {
        let samples = random.patterns(sample_count(rectangles, planes));
        let mut file = written(rectangles, planes, &samples);
        assert_eq!(file.len(), length);
        let table = CutTable::new(rectangles);
        writing::compare(report, &table, planes, &samples, vec![0; length]);
        writing::compare(report, &table, planes, &samples, vec![0; MAX_CUT_FILE]);
        for k in 0..=rectangles.len() as u32 {
            read(report, &file, k);
        }
        // Up to the limit these are refused because of their end (14), past it because of their length (7).
        for length in MAX_CUT_FILE - 1..MAX_CUT_FILE + 3 {
            file.resize(length, 0);
            read(report, &file, 0);
        }
        file.resize(MAX_CUT_FILE + PAST, 0);
        for length in (MAX_CUT_FILE + 1..=file.len())
            .filter(|_| report.takes())
            .collect::<Vec<_>>()
        {
            read_past(report, &file[..length]);
        }
        read_past(report, &vec![0; MAX_CUT_FILE + 1]);
    }
}

/// Slices for the file about the limit, with every kind of number of planes: 7 past the limit, whatever that number;
/// else 9 unless it is 1 or 3.
pub fn any_planes(report: &mut Report) {
    let mut random = Random::new(8);
    let most = [Region::with_size(1024, 1365), Region::with_size(338, 1)];
    let one = [Region::with_size(1, 1)];
    for planes in OF_PLANES {
        for (rectangles, lengths) in [
            (
                &most[..],
                [MAX_CUT_FILE + 1, MAX_CUT_FILE, MAX_CUT_FILE - 2],
            ),
            (&one, [MAX_CUT_FILE + 1, 30, 0]),
        ] {
            for length in lengths {
                let table = CutTable::new(rectangles);
                let samples = random.patterns(2);
                writing::compare(report, &table, planes, &samples, vec![0; length]);
            }
        }
    }
}

/// Compares what is read of rectangle k, into a slice of its samples.
fn read(report: &mut Report, file: &[u8], k: u32) {
    report.input();
    let shown = || format!("rectangle {k} of {} bytes", file.len());
    let found = expected::read(file);
    let read = found.as_ref().map_err(|number| *number);
    let answer = compare_table(report, file, read, k, shown);
    let mut left = vec![5; sample_count(&[answer.region], answer.planes)];
    let mut given = left.clone();
    let expected = expected::samples(file, read, k, &mut left);
    let answer = read_cut(file, k, &mut given);
    let same = (answer, given == left);
    report.call(READ, expected.number, (same, (expected, true)), shown);
}

/// Reads a file that is too long, whatever is in it.
fn read_past(report: &mut Report, file: &[u8]) {
    assert_eq!(expected::read(file).err(), Some(7));
    read(report, file, 0);
}

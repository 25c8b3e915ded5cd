//! Times of reading and writing cut files of nearly the largest size, and of copying as many bytes.

use std::hint::black_box;

use restoration::{CHANNELS, CutTable, Region, accepted};

use super::{Times, best, head};
use crate::random::Random;

const PLANES: u32 = CHANNELS as u32;

/// Rectangles whose files have 16,765,498 and 16,589,830 bytes.
const FILES: [(&str, usize, Region); 2] = [
    ("1 rectangle", 1, Region::with_size(1183, 1181)),
    ("64 rectangles", 64, Region::with_size(160, 135)),
];

pub fn print() {
    head(&["call", "file", "bytes", "ours, ms", "memcpy, ms", "ratio"]);
    for (name, count, region) in FILES {
        let table = CutTable::new(&vec![region; count]);
        let samples = patterns(count * region.sample_count());
        let length = restoration::cut_length(table, PLANES).value();
        let mut file = vec![0; length.expect("a file")];
        let mut copy = vec![0; file.len()];
        let bodies = 4 * samples.len();
        let mut back = vec![0; samples.len()];

        let times = best(
            || {
                let number = restoration::write_cut(table, PLANES, &samples, &mut file);
                accepted(number).expect("accepted");
            },
            || {
                copy[..bodies].copy_from_slice(bytes_of(&samples));
                black_box(&copy);
            },
        );
        row("write_cut", name, file.len(), times);
        let times = best(
            || read_all(&file, region, &mut back),
            || {
                copy.copy_from_slice(&file);
                black_box(&copy);
            },
        );
        row("read_cut", name, file.len(), times);
        assert_eq!(back, samples);
    }
}

/// All rectangles of a file, each of this region.
fn read_all(file: &[u8], region: Region, samples: &mut [u32]) {
    let rectangles = samples.chunks_exact_mut(region.sample_count());
    for (k, samples) in (0..).zip(rectangles) {
        let read = restoration::read_cut(file, k, samples).value();
        assert_eq!(read, Ok((region, PLANES)));
    }
}

fn patterns(count: usize) -> Vec<u32> {
    let mut random = Random::for_name("bench cut");
    (0..count).map(|_| random.next() as u32).collect()
}

fn bytes_of(samples: &[u32]) -> &[u8] {
    // SAFETY: the bytes of the samples, which are integers and stay borrowed.
    unsafe { core::slice::from_raw_parts(samples.as_ptr().cast(), size_of_val(samples)) }
}

fn row(call: &str, file: &str, bytes: usize, times: Times) {
    let [ours, theirs] = [times.ours, times.theirs].map(|time| time / 1e6);
    let ratio = times.ratio();
    println!("| {call} | {file} | {bytes} | {ours:.2} | {theirs:.2} | {ratio:.2} |");
}

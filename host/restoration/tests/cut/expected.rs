//! A reader and a writer of cut files, written from the Specification (16). They share no code with the library.

use std::ops::Range;

use restoration::{CountAnswer, CutAnswer, CutTable, LengthAnswer, Region};

const MARKER: [u8; 4] = [0x4B, 0x43, 0x55, 0x54];
/// The marker of a file of one plane.
const GREY_MARKER: [u8; 4] = [0x4B, 0x43, 0x55, 0x31];
const LONGEST: u64 = 16_777_216;

/// A file: its number of planes, and its rectangles.
pub struct File {
    pub planes: u32,
    pub rectangles: Vec<Rectangle>,
}

/// A rectangle of a file: its region, and where its samples lie.
pub struct Rectangle {
    pub region: Region,
    pub body: Range<usize>,
}

/// What is left of a file.
struct Rest<'a>(&'a [u8]);

impl<'a> Rest<'a> {
    /// The next bytes, or 14 where the file ends before them.
    fn take(&mut self, count: usize) -> Result<&'a [u8], u32> {
        let (taken, rest) = self.0.split_at_checked(count).ok_or(14_u32)?;
        self.0 = rest;
        Ok(taken)
    }
}

fn unsigned(bytes: &[u8]) -> u64 {
    let digit = |high: u64, byte: &u8| high << 8 | u64::from(*byte);
    bytes.iter().rev().fold(0, digit)
}

fn signed(bytes: &[u8]) -> i64 {
    let number = unsigned(bytes) as i64;
    let turn = 1_i64 << (8 * bytes.len());
    if number < turn / 2 {
        number
    } else {
        number - turn
    }
}

/// What is in a file, or the number of its refusal (16.5).
pub fn read(file: &[u8]) -> Result<File, u32> {
    if file.len() as u64 > LONGEST {
        return Err(7);
    }
    let mut rest = Rest(file);
    let marker = rest.take(4)?;
    let planes = if marker == MARKER {
        3
    } else if marker == GREY_MARKER {
        1
    } else {
        return Err(12);
    };
    let count = unsigned(rest.take(2)?);
    if count == 0 || count > 64 {
        return Err(12);
    }
    let mut end = 6 + 16 * count;
    let mut rectangles = Vec::new();
    for _ in 0..count {
        let entry = rest.take(16)?;
        let [left, top] = [&entry[4..8], &entry[8..12]].map(signed);
        let [width, height] = [&entry[12..14], &entry[14..]].map(unsigned);
        if !within_limits(left, top, width, height) || unsigned(&entry[..4]) != end {
            return Err(13);
        }
        let start = end;
        end += 4 * u64::from(planes) * width * height;
        rectangles.push(Rectangle {
            region: Region {
                left: left as i32,
                top: top as i32,
                width: width as u32,
                height: height as u32,
            },
            body: start as usize..end as usize,
        });
    }
    if file.len() as u64 != end {
        return Err(14);
    }
    Ok(File { planes, rectangles })
}

/// The limits of an image region (4.1).
fn within_limits(left: i64, top: i64, width: u64, height: u64) -> bool {
    let offset = |x: i64| x.unsigned_abs() <= 1_048_576;
    let side = |x: u64| (1..=16_384).contains(&x);
    offset(left) && offset(top) && side(width) && side(height) && width * height <= 16_777_216
}

/// What [`read`] returns, borrowed.
pub type Read<'a> = Result<&'a File, u32>;

pub fn count(read: Read) -> CountAnswer {
    read.map_or_else(CountAnswer::refused, |file| CountAnswer {
        number: 0,
        count: file.rectangles.len() as u32,
    })
}

/// Rectangle k of a file, or the number of the refusal (16.6).
fn rectangle(read: Read<'_>, k: u32) -> Result<&Rectangle, u32> {
    read?.rectangles.get(k as usize).ok_or(9)
}

fn answer(read: Read, found: Result<Region, u32>) -> CutAnswer {
    let both = read.and_then(|file| Ok((file.planes, found?)));
    both.map_or_else(CutAnswer::refused, |(planes, region)| CutAnswer {
        number: 0,
        region,
        planes,
    })
}

pub fn region(read: Read, k: u32) -> CutAnswer {
    answer(read, rectangle(read, k).map(|rectangle| rectangle.region))
}

/// The answer of `read_cut`. The samples become what it leaves in them.
pub fn samples(file: &[u8], read: Read, k: u32, samples: &mut [u32]) -> CutAnswer {
    let stored = rectangle(read, k).and_then(|rectangle| {
        let (body, _) = file[rectangle.body.clone()].as_chunks::<4>();
        if samples.len() != body.len() {
            return Err(7);
        }
        for (sample, bytes) in samples.iter_mut().zip(body) {
            *sample = u32::from_le_bytes(*bytes);
        }
        Ok(rectangle.region)
    });
    answer(read, stored)
}

/// The rectangles of a table, or the number of the refusal (16.7).
fn checked(table: &CutTable) -> Result<&[Region], u32> {
    if !(1..=64).contains(&table.count) {
        return Err(12);
    }
    let rectangles = &table.regions[..table.count as usize];
    let bad = |r: &Region| {
        let (width, height) = (u64::from(r.width), u64::from(r.height));
        !within_limits(r.left.into(), r.top.into(), width, height)
    };
    if rectangles.iter().any(bad) {
        return Err(4);
    }
    Ok(rectangles)
}

/// The length of the file of these rectangles with one plane or three, which is within the limit, or the number of
/// the refusal (16.7).
fn measured(rectangles: &[Region], planes: u32) -> Result<u64, u32> {
    if planes != 1 && planes != 3 {
        return Err(9);
    }
    let area = |r: &Region| u64::from(r.width) * u64::from(r.height);
    let areas: u64 = rectangles.iter().map(area).sum();
    let length = 6 + 16 * rectangles.len() as u64 + 4 * u64::from(planes) * areas;
    if length > LONGEST {
        return Err(7);
    }
    Ok(length)
}

pub fn length(table: &CutTable, planes: u32) -> LengthAnswer {
    let length = checked(table).and_then(|rectangles| measured(rectangles, planes));
    length.map_or_else(LengthAnswer::refused, |length| LengthAnswer {
        number: 0,
        length: length as usize,
    })
}

/// The bytes that `write_cut` leaves in a slice of this length, or the number of the refusal (16.8).
fn stored(table: &CutTable, planes: u32, samples: &[u32], room: u64) -> Result<Vec<u8>, u32> {
    let rectangles = checked(table)?;
    if room > LONGEST {
        return Err(7);
    }
    let length = measured(rectangles, planes)?;
    let written = written(rectangles, planes, samples);
    if room != length || written.len() as u64 != length {
        return Err(7);
    }
    Ok(written)
}

/// The number of `write_cut`. The file becomes what it leaves in it.
pub fn write(table: &CutTable, planes: u32, samples: &[u32], file: &mut Vec<u8>) -> u32 {
    match stored(table, planes, samples, file.len() as u64) {
        Ok(written) => *file = written,
        Err(number) => return number,
    }
    0
}

/// The bytes of these rectangles and samples, one plane or three, valid or not (16.2, 16.3).
pub fn written(rectangles: &[Region], planes: u32, samples: &[u32]) -> Vec<u8> {
    let marker = if planes == 1 { GREY_MARKER } else { MARKER };
    let mut file = marker.to_vec();
    file.extend((rectangles.len() as u16).to_le_bytes());
    let mut end = 6 + 16 * rectangles.len() as u64;
    for r in rectangles {
        file.extend((end as u32).to_le_bytes());
        file.extend(r.left.to_le_bytes());
        file.extend(r.top.to_le_bytes());
        file.extend((r.width as u16).to_le_bytes());
        file.extend((r.height as u16).to_le_bytes());
        end += 4 * u64::from(planes) * u64::from(r.width) * u64::from(r.height);
    }
    file.extend(samples.iter().flat_map(|sample| sample.to_le_bytes()));
    file
}

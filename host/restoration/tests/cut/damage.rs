//! Damaged cut files.

use restoration::Region;

use crate::{
    expected::written,
    random::Random,
    rectangles::{PLANES, sample_count},
};

/// Of three planes, of one, and of no cut file.
const MARKERS: [&[u8]; 3] = [b"KCUT", b"KCU1", b"KCU3"];

/// Where the table begins, and the length of an entry.
const TABLE: usize = 6;
const ENTRY: usize = 16;

/// 4096 × 4096 samples: the largest body, 201,326,592 bytes in three planes and 67,108,864 in one.
const LARGEST: Region = Region::with_size(4096, 4096);

/// A valid file.
fn valid(random: &mut Random) -> Vec<u8> {
    let rectangles = random.rectangles();
    let planes = random.one_of(&PLANES);
    let samples = sample_count(&rectangles, planes);
    written(&rectangles, planes, &random.patterns(samples))
}

/// A file that is damaged up to three times. Sometimes it stays valid.
pub fn file(random: &mut Random) -> Vec<u8> {
    match random.below(64) {
        0 => return past_32_bits(random),
        1 => return end_past_32_bits(random),
        2 => return noise(random),
        _ => {}
    }
    let mut file = valid(random);
    for _ in 0..random.below(4) {
        damage(&mut file, random);
    }
    file
}

fn damage(file: &mut Vec<u8>, random: &mut Random) {
    match random.below(11) {
        0 => file.truncate(random.below(file.len() + 1)),
        1 => file.truncate(random.below(file.len().min(100) + 1)),
        2 => file.extend(vec![random.next() as u8; 1 + random.below(20)]),
        3 => any_byte(file, random),
        4 => count(file, random),
        5 => swapped(file, random),
        6 => field(file, random, 0, 4),
        7 => field(file, random, 4, 4),
        8 => field(file, random, 8, 4),
        9 => put(file, 0, random.one_of(&MARKERS)),
        _ => side(file, random),
    }
}

/// Replaces a byte: of the marker and the count, of the first 100 bytes, or of the whole file.
fn any_byte(file: &mut [u8], random: &mut Random) {
    let reach = random.one_of(&[TABLE, 100, usize::MAX]).min(file.len());
    if reach > 0 {
        file[random.below(reach)] = random.next() as u8;
    }
}

fn put(file: &mut [u8], at: usize, bytes: &[u8]) {
    if let Some(place) = file.get_mut(at..at + bytes.len()) {
        place.copy_from_slice(bytes);
    }
}

/// How many entries there are: the count in the file, or fewer if the file is too short for them.
fn entries(file: &[u8]) -> usize {
    let said = file.get(4).map_or(0, |&count| usize::from(count));
    said.min(file.len().saturating_sub(TABLE) / ENTRY)
}

fn count(file: &mut [u8], random: &mut Random) {
    let count = entries(file) as u16;
    let near = [count.wrapping_sub(1), count.wrapping_add(1), count | 256];
    let far = [
        0,
        1,
        63,
        64,
        65,
        255,
        256,
        320,
        u16::MAX,
        random.next() as u16,
    ];
    let list = if random.once_in(2) { &near[..] } else { &far };
    put(file, 4, &random.one_of(list).to_le_bytes());
}

/// Swaps two entries, with or without their offsets.
fn swapped(file: &mut [u8], random: &mut Random) {
    let count = entries(file);
    if count < 2 {
        return;
    }
    let kept = random.one_of(&[0, 4]);
    let [one, other] = [(); 2].map(|()| TABLE + ENTRY * random.below(count) + kept);
    for byte in 0..ENTRY - kept {
        file.swap(one + byte, other + byte);
    }
}

/// Changes a field of an entry: its own number a little, to a number of another entry, or to another number.
fn field(file: &mut [u8], random: &mut Random, at: usize, length: usize) {
    let count = entries(file);
    if count == 0 {
        return;
    }
    let at = TABLE + ENTRY * random.below(count) + at;
    let other = TABLE + ENTRY * random.below(count) + random.one_of(&[0, 4, 8]);
    let number = |at: usize| u32::from_le_bytes(file[at..at + 4].try_into().expect("four bytes"));
    let (own, other) = (number(at), number(other));
    let changed = match random.below(8) {
        0 => own.wrapping_add(1),
        1 => own.wrapping_sub(1),
        2 => own ^ 1 << random.below(32),
        3 => own.wrapping_neg(),
        4 => own.wrapping_sub((TABLE + ENTRY * count) as u32),
        5 => other,
        6 => random.one_of(&[1_048_576, 1_048_577, 0x8000_0000, 0x7FFF_FFFF, 0xFFEF_FFFF]),
        _ => random.next() as u32,
    };
    put(file, at, &changed.to_le_bytes()[..length]);
}

fn side(file: &mut [u8], random: &mut Random) {
    let count = entries(file);
    if count == 0 {
        return;
    }
    let at = TABLE + ENTRY * random.below(count) + 12;
    let any = random.next() as u16;
    let sides = random.one_of(&[0, 1, 4096, 4097, 16_384, 16_385, u16::MAX, any]);
    match random.below(4) {
        // Swapped: the area stays, and the file may be valid.
        0 => {
            file.swap(at, at + 2);
            file.swap(at + 1, at + 3);
        }
        1 => put(
            file,
            at,
            &[sides.to_le_bytes(), 4096_u16.to_le_bytes()].concat(),
        ),
        2 => put(file, at, &sides.to_le_bytes()),
        _ => put(file, at + 2, &sides.to_le_bytes()),
    }
}

/// A table whose later bodies start past 2^32: their offsets have only the last 32 bits of that.
fn past_32_bits(random: &mut Random) -> Vec<u8> {
    let largest = 20 + random.below(20);
    let mut rectangles = vec![LARGEST; largest];
    rectangles.extend((0..random.below(10)).map(|_| random.rectangle()));
    let samples = random.one_of(&[0, 3, 30]);
    written(&rectangles, 3, &random.patterns(samples))
}

/// A file whose offsets are right and whose last body ends 2^32 bytes past the end of the file: a reader that
/// keeps 32 bits accepts it. In one plane, 64 of the largest bodies have 2^32 bytes. In three, the 23 entries end at byte 374, and 21 of the largest bodies have 4,227,858,432
/// bytes; the other two bodies have the sides with which the sum is 2^32 plus the file's length.
fn end_past_32_bits(random: &mut Random) -> Vec<u8> {
    let more = random.below(100) as u32;
    let mut rectangles = vec![LARGEST; 21];
    rectangles.push(Region::with_size(4096, 1365));
    rectangles.push(Region::with_size(1366 + more, 1));
    let mut file = if random.once_in(2) {
        written(&[LARGEST; 64], 1, &[])
    } else {
        written(&rectangles, 3, &random.patterns(2 + 3 * more as usize))
    };
    if random.once_in(4) {
        file.push(0);
    }
    file
}

/// Random bytes, half of the time after a marker and a count.
fn noise(random: &mut Random) -> Vec<u8> {
    let mut file: Vec<u8> = (0..random.below(200))
        .map(|_| random.next() as u8)
        .collect();
    if random.once_in(2) {
        put(&mut file, 0, random.one_of(&MARKERS));
        put(&mut file, 4, &[random.next() as u8 % 66, 0]);
    }
    file
}

//! Rows of the header readers.

use std::collections::{BTreeMap, BTreeSet};

use crate::{
    header::{Field, HALVES, READERS, Reader, header, pack, place_and_encoding},
    random::Random,
};

/// Random headers from which the rows are chosen.
const CANDIDATES: usize = 20_000;

/// Weights of kernels with sum zero.
const VANISHING: [[u32; 2]; 4] = [
    [0xB000, 0xB000],
    [0xB400, 0x0000],
    [0x8000, 0xB400],
    [0x3400, 0xB800],
];

#[derive(Clone, PartialEq, Eq, PartialOrd, Ord)]
struct Drawn {
    bytes: Vec<u8>,
    place: usize,
    modular: bool,
}

/// The number, the encoding and how many bits are read.
type Class = (u32, bool, usize);

pub fn rows(reader: &Reader) -> Vec<String> {
    let mut chosen = named(reader);
    let mut seen: BTreeSet<Drawn> = chosen.iter().cloned().collect();
    let mut random = Random::for_name(&format!("record {}", reader.name));
    let mut classes: BTreeMap<Class, Vec<Drawn>> = BTreeMap::new();
    for _ in 0..CANDIDATES {
        let drawn = trimmed(reader, draw(&mut random), &mut random);
        if seen.insert(drawn.clone()) {
            classes
                .entry(class(reader, &drawn))
                .or_default()
                .push(drawn);
        }
    }
    // Two refusals for each result.
    let times = |&(number, ..): &Class| if number == 0 { 1 } else { 2 };
    super::fill(&mut chosen, classes, times, &mut random);
    chosen.iter().map(|drawn| row(reader, drawn)).collect()
}

/// Every kind of half, each at another bit position.
fn named(reader: &Reader) -> Vec<Drawn> {
    if reader.name != READERS[0].name {
        return Vec::new();
    }
    (0..)
        .zip(HALVES)
        .map(|(place, half)| Drawn {
            bytes: pack(place, &[(half, 16)], 0xFF),
            place,
            modular: false,
        })
        .collect()
}

/// A random header, some with replaced halves, some cut short or read past the end.
fn draw(random: &mut Random) -> Drawn {
    let (mut place, modular) = place_and_encoding(random);
    let mut fields = header(random, modular);
    match random.within(0, 3) {
        0 => replace(random, &mut fields, |random| vec![random.one_of(&HALVES)]),
        1 => replace(random, &mut fields, |random| {
            random.one_of(&VANISHING).to_vec()
        }),
        _ => {}
    }
    let mut bytes = pack(place, &fields, random.next() as u8);
    match random.within(0, 7) {
        0 | 1 => bytes.truncate(random.within(0, bytes.len() as i128) as usize),
        2 => place = (8 * bytes.len()).saturating_sub(random.within(0, 20) as usize),
        3 => place = random.one_of(&[8 * bytes.len() + 1, 1 << 32, i64::MAX as usize]),
        _ => {}
    }
    Drawn {
        bytes,
        place,
        modular,
    }
}

/// Replaces some of the halves.
fn replace(random: &mut Random, fields: &mut [Field], by: impl Fn(&mut Random) -> Vec<u32>) {
    let others = by(random);
    let halves: Vec<usize> = (0..fields.len()).filter(|&i| fields[i].1 == 16).collect();
    let starts = halves.len().saturating_sub(others.len() - 1);
    if starts > 0 {
        let first = random.within(0, starts as i128 - 1) as usize;
        for (&at, half) in halves[first..].iter().zip(others) {
            fields[at].0 = half;
        }
    }
}

/// Drops most of the bytes that do not change the answer. If the bits run out all bytes stay.
fn trimmed(reader: &Reader, drawn: Drawn, random: &mut Random) -> Drawn {
    let Drawn {
        bytes,
        place,
        modular,
    } = &drawn;
    let whole = reader.original_reading((bytes, *place, *modular));
    let more = random.within(0, 2) as usize;
    if whole.number == 1 {
        return drawn;
    }
    let needed = (0..bytes.len())
        .find(|&len| reader.original_reading((&bytes[..len], *place, *modular)) == whole)
        .unwrap_or(bytes.len());
    Drawn {
        bytes: bytes[..bytes.len().min(needed + more)].to_vec(),
        ..drawn
    }
}

fn class(reader: &Reader, drawn: &Drawn) -> Class {
    let reading = reader.original_reading((&drawn.bytes, drawn.place, drawn.modular));
    let bits = match reading.number {
        0 => reading.next - drawn.place,
        _ => 0,
    };
    (reading.number, reader.encoded && drawn.modular, bits)
}

/// The count of bytes, the bytes, the bit position, the encoding, the number, the fields and the next
/// bit position.
fn row(reader: &Reader, drawn: &Drawn) -> String {
    let reading = reader.original_reading((&drawn.bytes, drawn.place, drawn.modular));
    let mut row = reader.name.replace(' ', "_");
    row += &format!(" {}", drawn.bytes.len());
    for byte in &drawn.bytes {
        row += &format!(" {byte}");
    }
    row += &format!(" {}", drawn.place);
    if reader.encoded {
        row += &format!(" {}", u32::from(drawn.modular));
    }
    row += &format!(" {}", reading.number);
    for (kind, field) in reader.form.bytes().zip(reading.fields) {
        row += &match kind {
            b'f' => format!(" x{field:08x}"),
            _ => format!(" {field}"),
        };
    }
    row + &format!(" {}", reading.next)
}

//! The built-in picture: a sky with a little noise, hills hatched as in an engraving, and a strip of
//! lettering. Every operation is exact or correctly rounded, so that the picture is the same
//! everywhere.

use restoration::{BLOCK, CHANNELS};

use crate::{
    lettering,
    picture::{Picture, at_corner},
};

const WIDTH: u32 = 768;
const HEIGHT: u32 = 512;

/// Where the strip of lettering begins, and where and how large its letters are.
const STRIP: f32 = 432.0;
const LETTERS: (f32, f32) = (171.0, 451.0);
const LETTER_SCALE: f32 = 6.0;

/// The planes of paper and of ink.
const PAPER: [f32; CHANNELS] = [0.96, 0.93, 0.84];
const INK: [f32; CHANNELS] = [0.16, 0.13, 0.12];
/// How dark the sky is, and how far its noise goes to either side.
const SKY: f32 = 0.12;
const NOISE: f32 = 0.03;

/// Sigmas of blocks of sky, of hills and of the strip; under 0.3 a block is copied.
const SKY_SIGMA: f32 = 24.0;
const HILL_SIGMA: f32 = 60.0;
const STRIP_SIGMA: f32 = 0.25;

enum Zone {
    Sky,
    /// Depth below the skyline, from 0 to 1 at the strip.
    Hill(f32),
    Strip,
}

/// Of three planes, or the first of them as a grey picture.
pub fn picture(planes: u32) -> Picture {
    let mut noise = Noise(1);
    let plane = |c: usize| {
        let places = (0..HEIGHT).flat_map(|y| (0..WIDTH).map(move |x| (x as f32, y as f32)));
        places.map(move |place| (c, place))
    };
    let sample = |(c, (x, y))| {
        let ink = ink(x, y);
        let sample = PAPER[c] + (INK[c] - PAPER[c]) * ink;
        match zone(x, y) {
            Zone::Sky => sample + NOISE * noise.next(),
            _ => sample,
        }
    };
    Picture {
        region: at_corner(WIDTH, HEIGHT),
        planes: (0..planes as usize).flat_map(plane).map(sample).collect(),
    }
}

/// Width, height and cells of the picture's grid of sigmas, one per block.
pub fn sigmas() -> (u32, u32, Vec<f32>) {
    let (width, height) = (WIDTH / BLOCK, HEIGHT / BLOCK);
    let cells = (0..height).flat_map(|row| (0..width).map(move |column| sigma(column, row)));
    (width, height, cells.collect())
}

/// The sigma of a block; neighbours differ outside the strip.
fn sigma(column: u32, row: u32) -> f32 {
    let change = ((column * 5 + row * 3) % 16) as f32 / 16.0;
    let centre = |place: u32| (place * BLOCK + BLOCK / 2) as f32;
    match zone(centre(column), centre(row)) {
        Zone::Sky => SKY_SIGMA * (1.0 + change),
        Zone::Hill(_) => HILL_SIGMA * (0.5 + change),
        Zone::Strip => STRIP_SIGMA,
    }
}

fn zone(x: f32, y: f32) -> Zone {
    let skyline = skyline(x / WIDTH as f32);
    if y >= STRIP {
        Zone::Strip
    } else if y >= skyline {
        Zone::Hill((y - skyline) / (STRIP - skyline))
    } else {
        Zone::Sky
    }
}

/// The row at which the hills begin: the higher of two.
fn skyline(x: f32) -> f32 {
    let hill = |top: f32, centre: f32, slope: f32| top + slope * (x - centre) * (x - centre);
    hill(150.0, 0.28, 900.0).min(hill(210.0, 0.8, 500.0))
}

/// How much of a sample is ink, from 0 to 1.
fn ink(x: f32, y: f32) -> f32 {
    match zone(x, y) {
        Zone::Sky => SKY,
        Zone::Hill(depth) => hatching(x, y, depth),
        Zone::Strip => lettered(x - LETTERS.0, y - LETTERS.1),
    }
}

/// Lines that bend with the hill and thicken below; deeper down a second layer crosses them.
fn hatching(x: f32, y: f32, depth: f32) -> f32 {
    let bend = (x / WIDTH as f32 - 0.5) * 60.0 * depth;
    let falling = line(0.35 * x + y + bend, 7.0, 0.18 + 0.2 * depth);
    let rising = line(0.8 * x - 0.6 * y, 6.0, 0.5 * (depth - 0.45));
    falling.max(rising)
}

/// How much ink a layer of parallel lines has at a position across them.
fn line(along: f32, spacing: f32, thickness: f32) -> f32 {
    let turns = along / spacing;
    let from_centre = (turns - turns.floor() - 0.5).abs();
    ((thickness - from_centre) * spacing).clamp(0.0, 1.0)
}

fn lettered(x: f32, y: f32) -> f32 {
    let (column, row) = (x / LETTER_SCALE, y / LETTER_SCALE);
    let (width, height) = lettering::SIDES;
    let inside = column >= 0.0 && row >= 0.0 && column < width as f32 && row < height as f32;
    let inked = inside && lettering::ink(column as usize, row as usize);
    f32::from(u8::from(inked))
}

/// Numbers from -1 to 1 (a linear congruential generator, modulus 2^64).
struct Noise(u64);

impl Noise {
    fn next(&mut self) -> f32 {
        let next = self.0.wrapping_mul(6_364_136_223_846_793_005);
        self.0 = next.wrapping_add(1_442_695_040_888_963_407);
        (self.0 >> 40) as f32 / (1 << 23) as f32 - 1.0
    }
}

//! The filters as Specification 8 and 10 to 12 define them, for any number of planes: sample by sample, each
//! operation rounded to binary32 in its place, nothing shared between samples. It has no code in common with
//! the library or the original.

use oracle::Place;
use restoration::{BLOCK, EpfStep, Setup};

use crate::picture;

/// Samples of planes, each row by row.
type Planes = Vec<Vec<f32>>;
/// Columns to the right and rows down.
type Offset = (isize, isize);

/// The farthest that a filter reads in each direction (12.14: step 0).
const REACH: usize = 3;
const BLOCK_SIDE: usize = BLOCK as usize;
/// Blocks with a smaller sigma are copied (11.4).
const COPYING_LIMIT: f32 = f32::from_bits(0x3E99_999A);

/// The neighbours K of step 0, and of steps 1 and 2 (11.2).
const NEIGHBOURS_0: [Offset; 12] = [
    (0, -2),
    (-1, -1),
    (0, -1),
    (1, -1),
    (-2, 0),
    (-1, 0),
    (1, 0),
    (2, 0),
    (-1, 1),
    (0, 1),
    (1, 1),
    (0, 2),
];
const NEIGHBOURS: [Offset; 4] = [(0, -1), (0, 1), (-1, 0), (1, 0)];
/// The offsets D of each step (11.3).
const COMPARED: [&[Offset]; 3] = [
    &[(0, -1), (1, 0), (0, 0), (-1, 0), (0, 1)],
    &[(0, -1), (0, 0), (0, 1), (-1, 0), (1, 0)],
    &[(0, 0)],
];

/// The result of a Gabor-like pass: of each channel that has a plane the weights are read.
pub fn gabor_pass(place: &Place, weights: &[[f32; 2]], planes: Planes) -> Planes {
    let width = place.filter.width as usize;
    pass(place, planes, |planes| gabor(weights, width, planes))
}

/// The result of an edge-preserving step.
pub fn epf_pass(place: &Place, settings: EpfStep, sigmas: &[f32], planes: Planes) -> Planes {
    let (width, top) = (place.filter.width as usize, place.filter.top as usize);
    pass(place, planes, |planes| {
        epf(settings, sigmas, (width, top), planes)
    })
}

/// The result of a whole run (12.2, 12.3), plane by plane; `sigmas` are those that start computes.
pub fn run(setup: &Setup, place: &Place, sigmas: &[f32], first: &[f32]) -> Vec<f32> {
    let mut planes = picture::split(first, setup.planes);
    // All passes are over the whole image region; the result is a part of the last one's.
    let whole = Place {
        preserve_outside: true,
        ..*place
    };
    let (gabor, epf) = (setup.settings.gabor, setup.settings.epf);
    if gabor.enabled == 1 {
        planes = gabor_pass(&whole, &gabor.weights, planes);
    }
    // 11.1 and 11.5.
    let steps: &[u32] = [&[][..], &[1], &[1, 2], &[0, 1, 2]][epf.iters as usize];
    for &step in steps {
        let scales = [
            epf.sigma.pass0_sigma_scale,
            1.0,
            epf.sigma.pass2_sigma_scale,
        ];
        let settings = EpfStep {
            step,
            channel_scale: epf.channel_scale,
            multiplier: scales[step as usize],
            border_sad_mul: epf.sigma.border_sad_mul,
            ..EpfStep::DEFAULT
        };
        planes = epf_pass(&whole, settings, sigmas, planes);
    }
    if place.preserve_outside {
        planes.concat()
    } else {
        planes
            .iter()
            .flat_map(|plane| inside(place, plane))
            .collect()
    }
}

/// A pass over all rows (9.3): the filter's samples inside the filter region, copies outside it.
fn pass(place: &Place, planes: Planes, filter: impl FnOnce(&[Vec<f32>]) -> Planes) -> Planes {
    let parts: Planes = planes.iter().map(|plane| inside(place, plane)).collect();
    let filtered = filter(&parts);
    if !place.preserve_outside {
        return filtered;
    }
    let mut planes = planes;
    for (plane, filtered) in planes.iter_mut().zip(filtered) {
        for (at, sample) in places(place).zip(filtered) {
            plane[at] = sample;
        }
    }
    planes
}

/// The samples of a plane in the filter region.
fn inside(place: &Place, plane: &[f32]) -> Vec<f32> {
    places(place).map(|at| plane[at]).collect()
}

/// The indices of the filter region in a plane of the image region (9.1), row by row.
fn places(place: &Place) -> impl Iterator<Item = usize> + use<> {
    let (image, filter) = (place.image, place.filter);
    let left = (i64::from(filter.left) - i64::from(image.left)) as usize;
    let top = (i64::from(filter.top) - i64::from(image.top)) as usize;
    let (width, columns) = (image.width as usize, filter.width as usize);
    (top..top + filter.height as usize)
        .flat_map(move |y| (left..left + columns).map(move |x| y * width + x))
}

// ---- the Gabor-like filter

/// Where a column or a row is (10.3).
#[derive(Clone, Copy, PartialEq)]
enum Line {
    Only,
    End,
    Inner,
}

impl Line {
    fn of(at: usize, count: usize) -> Self {
        if count == 1 {
            Self::Only
        } else if at == 0 || at + 1 == count {
            Self::End
        } else {
            Self::Inner
        }
    }
}

fn gabor(weights: &[[f32; 2]], width: usize, planes: &[Vec<f32>]) -> Planes {
    let channels = planes.iter().zip(weights);
    let filtered = channels.map(|(plane, &[w0, w1])| {
        let g = 1.0 / (1.0 + w0 * 4.0 + w1 * 4.0);
        let samples = (0..plane.len()).map(|at| {
            let (x, y) = (at % width, at / width);
            match weighted(plane, width, (x, y), [w0, w1]) {
                Some(u) => u * g,
                None => plane[at],
            }
        });
        samples.collect()
    });
    filtered.collect()
}

/// u (10.4); none for a sample alone.
fn weighted(plane: &[f32], width: usize, (x, y): (usize, usize), weights: [f32; 2]) -> Option<f32> {
    let v =
        |dx: isize, dy: isize| plane[y.wrapping_add_signed(dy) * width + x.wrapping_add_signed(dx)];
    // The sides on which h and a lie (10.3).
    let hx = if x == 0 { 1 } else { -1 };
    let ay = if y == 0 { 1 } else { -1 };
    let column = Line::of(x, width);
    match Line::of(y, plane.len() / width) {
        Line::Inner => Some(inner_row(column, hx, v, weights)),
        Line::End => Some(end_row(column, (hx, ay), v, weights)),
        Line::Only => only_row(column, hx, v, weights),
    }
}

fn inner_row(column: Line, hx: isize, v: impl Fn(isize, isize) -> f32, [w0, w1]: [f32; 2]) -> f32 {
    let (c, t, b) = (v(0, 0), v(0, -1), v(0, 1));
    match column {
        Line::Inner => {
            let (l, r) = (v(-1, 0), v(1, 0));
            let (tl, tr, bl, br) = (v(-1, -1), v(1, -1), v(-1, 1), v(1, 1));
            c + (t + l + r + b) * w0 + (tl + tr + bl + br) * w1
        }
        Line::End => {
            let (h, th, bh) = (v(hx, 0), v(hx, -1), v(hx, 1));
            c + (t + h + c + b) * w0 + (th + t + bh + b) * w1
        }
        Line::Only => c + (t + 2.0 * c + b) * w0 + 2.0 * (t + b) * w1,
    }
}

/// The first row or the last.
fn end_row(
    column: Line,
    (hx, ay): (isize, isize),
    v: impl Fn(isize, isize) -> f32,
    [w0, w1]: [f32; 2],
) -> f32 {
    let (c, a) = (v(0, 0), v(0, ay));
    match column {
        Line::Inner => {
            let (l, r, al, ar) = (v(-1, 0), v(1, 0), v(-1, ay), v(1, ay));
            c + (a + l + c + r) * w0 + (al + ar + l + r) * w1
        }
        Line::End => {
            let (h, ah) = (v(hx, 0), v(hx, ay));
            c * (1.0 + 2.0 * w0 + w1) + (a + h) * (w0 + w1) + ah * w1
        }
        Line::Only => c * (1.0 + 3.0 * w0 + 2.0 * w1) + a * (w0 + 2.0 * w1),
    }
}

fn only_row(
    column: Line,
    hx: isize,
    v: impl Fn(isize, isize) -> f32,
    [w0, w1]: [f32; 2],
) -> Option<f32> {
    let c = v(0, 0);
    match column {
        Line::Inner => {
            let (l, r) = (v(-1, 0), v(1, 0));
            Some(c * (1.0 + 2.0 * w0) + (l + r) * (w0 + 2.0 * w1))
        }
        Line::End => {
            let h = v(hx, 0);
            Some(c * ((1.0 + 2.0 * w0) + (w0 + 2.0 * w1)) + h * (w0 + 2.0 * w1))
        }
        Line::Only => None,
    }
}

// ---- the edge-preserving filter

fn epf(
    settings: EpfStep,
    sigmas: &[f32],
    (width, top): (usize, usize),
    planes: &[Vec<f32>],
) -> Planes {
    let step = Step {
        settings,
        neighbours: if settings.step == 0 {
            &NEIGHBOURS_0
        } else {
            &NEIGHBOURS
        },
        compared: COMPARED[settings.step as usize],
        planes: planes
            .iter()
            .map(|plane| Mirrored::new(plane, width))
            .collect(),
        top,
    };
    let mut filtered = planes.to_vec();
    for at in 0..planes[0].len() {
        let (x, y) = (at % width, at / width);
        let sigma = sigmas[y / BLOCK_SIDE * width.div_ceil(BLOCK_SIDE) + x / BLOCK_SIDE];
        if sigma < COPYING_LIMIT {
            continue;
        }
        let weights = step.weights((x, y), sigma);
        for (channel, plane) in filtered.iter_mut().enumerate() {
            plane[at] = step.sample(channel, (x, y), &weights);
        }
    }
    filtered
}

struct Step {
    settings: EpfStep,
    neighbours: &'static [Offset],
    compared: &'static [Offset],
    planes: Vec<Mirrored>,
    /// The filter region's top.
    top: usize,
}

impl Step {
    /// The weights of the neighbours (11.7), zeros behind them.
    fn weights(&self, at: (usize, usize), sigma: f32) -> [f32; NEIGHBOURS_0.len()] {
        let root = f32::from_bits(0x3F35_04F3);
        let slope = ((f32::from_bits(0x40D3_3333) * (root - 1.0)) / sigma) * self.multiplier(at);
        let mut weights = [0.0; NEIGHBOURS_0.len()];
        for (weight, &neighbour) in weights.iter_mut().zip(self.neighbours) {
            let q = 1.0 + self.distance(at, neighbour) * slope;
            *weight = if q > 0.0 { q } else { 0.0 };
        }
        weights
    }

    /// M (11.5).
    fn multiplier(&self, (x, y): (usize, usize)) -> f32 {
        let at_border = |at: usize| matches!(at % BLOCK_SIDE, 0 | 7);
        let scale = self.settings.multiplier;
        if at_border(x) || at_border(self.top + y) {
            scale * self.settings.border_sad_mul
        } else {
            scale
        }
    }

    /// d (11.6).
    fn distance(&self, at: (usize, usize), (kx, ky): Offset) -> f32 {
        let mut distance = 0.0;
        for (v, scale) in self.planes.iter().zip(self.settings.channel_scale) {
            let mut sum = 0.0;
            for &(ix, iy) in self.compared {
                sum += (v.at(at, (kx + ix, ky + iy)) - v.at(at, (ix, iy))).abs();
            }
            distance += scale * sum;
        }
        distance
    }

    /// n / m (11.8).
    fn sample(&self, channel: usize, at: (usize, usize), weights: &[f32]) -> f32 {
        let v = &self.planes[channel];
        let (mut n, mut m) = (v.at(at, (0, 0)), 1.0);
        for (weight, &neighbour) in weights.iter().zip(self.neighbours) {
            n += weight * v.at(at, neighbour);
            m += weight;
        }
        n / m
    }
}

/// A plane with mirrored samples around it, as far as a step reads.
struct Mirrored {
    samples: Vec<f32>,
    width: usize,
}

impl Mirrored {
    fn new(plane: &[f32], width: usize) -> Self {
        let along = |length: usize| -> Vec<usize> {
            let reach = REACH as isize;
            (-reach..length as isize + reach)
                .map(|at| mirrored(at, length))
                .collect()
        };
        let (columns, rows) = (along(width), along(plane.len() / width));
        let samples = rows
            .iter()
            .flat_map(|y| columns.iter().map(move |x| plane[y * width + x]));
        Self {
            samples: samples.collect(),
            width: columns.len(),
        }
    }

    /// v (11.6).
    fn at(&self, (x, y): (usize, usize), (dx, dy): Offset) -> f32 {
        let column = (x + REACH).wrapping_add_signed(dx);
        let row = (y + REACH).wrapping_add_signed(dy);
        self.samples[row * self.width + column]
    }
}

/// The mirrored index (8.1).
fn mirrored(at: isize, length: usize) -> usize {
    let m = at.rem_euclid(2 * length as isize) as usize;
    if m < length { m } else { 2 * length - 1 - m }
}

#[cfg(test)]
mod tests {
    use super::*;

    /// Specification 14.1.
    #[test]
    fn mirrored_indices() {
        let mirrors = [(-1, 1, 0), (-3, 2, 1), (5, 4, 2), (7, 3, 1)];
        for (at, length, index) in mirrors {
            assert_eq!(mirrored(at, length), index);
        }
    }

    /// Specification 14.6 and 14.7.
    #[test]
    fn gabor_instances() {
        let plane = vec![0.0, 0.0, 0.0, 0.0, 16.0, 0.0, 0.0, 0.0, 0.0];
        let smooth = vec![1.0, 2.0, 1.0, 2.0, 4.0, 2.0, 1.0, 2.0, 1.0];
        assert_eq!(gabor(&[[0.5, 0.25]], 3, &[plane]), [smooth]);
        let row = vec![0.0, 16.0, 0.0];
        assert_eq!(gabor(&[[0.5, 0.25]], 3, &[row]), [vec![4.0, 8.0, 4.0]]);
    }

    /// Step 1 at the first sample of 0 0 / 2^-24 1, and what it would be with the order of step 0 (11.3).
    #[test]
    fn orders_of_sums_differ() {
        let settings = EpfStep {
            channel_scale: [1.0, f32::NAN, f32::NAN],
            border_sad_mul: 1.0,
            ..EpfStep::DEFAULT
        };
        let plane = vec![0.0, 0.0, 1.0 / (1 << 24) as f32, 1.0];
        let filtered = epf(settings, &[2.0], (2, 0), core::slice::from_ref(&plane));
        assert_eq!(filtered[0][0].to_bits(), 0x3032_B54E);
        let other = Step {
            settings,
            neighbours: &NEIGHBOURS,
            compared: COMPARED[0],
            planes: vec![Mirrored::new(&plane, 2)],
            top: 0,
        };
        let weights = other.weights((0, 0), 2.0);
        assert_eq!(other.sample(0, (0, 0), &weights).to_bits(), 0x3032_B578);
    }

    /// Specification 11.8: with one plane as with three whose other scales are 0.
    #[test]
    fn step_instance() {
        let settings = EpfStep {
            step: 2,
            channel_scale: [1.0, f32::NAN, f32::NAN],
            multiplier: 1.0,
            border_sad_mul: 1.0,
            ..EpfStep::DEFAULT
        };
        let planes = epf(settings, &[1.0], (2, 0), &[vec![0.0, 0.5]]);
        let bits: Vec<u32> = planes[0].iter().map(|sample| sample.to_bits()).collect();
        assert_eq!(bits, [0x3B87_E264, 0x3EFD_E078]);
    }
}

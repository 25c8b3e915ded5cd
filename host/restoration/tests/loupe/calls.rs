//! Calls with any arguments, right or wrong: the number and every buffer are compared with the expected ones.

use core::{fmt, hint::black_box, ops::Range};

use restoration::{
    Frame, Loupe, LoupeSetup, Region, Setup, accepted, advance, band, loupe_smooth, loupe_widened,
    result, start,
};

use crate::{
    LOUPE, SMOOTH, WIDENED,
    expected::{self, Lengths},
    report::Report,
};

/// The arguments of `loupe_smooth`.
#[derive(Clone)]
pub struct Call {
    pub setup: LoupeSetup,
    pub frame: Frame,
    pub table: Vec<u32>,
    pub grids: Vec<f32>,
    pub first: Vec<f32>,
    pub second: Vec<f32>,
    pub sigmas: Vec<f32>,
    pub out: Vec<f32>,
}

impl fmt::Debug for Call {
    fn fmt(&self, f: &mut fmt::Formatter) -> fmt::Result {
        let lengths = [
            &self.grids, &self.first, &self.second, &self.sigmas, &self.out,
        ];
        f.debug_struct("Call")
            .field("setup", &self.setup)
            .field("frame", &self.frame)
            .field("table", &self.table)
            .field("lengths", &lengths.map(Vec::len))
            .finish()
    }
}

impl Call {
    fn smooth(&mut self) -> u32 {
        loupe_smooth(
            self.setup,
            self.frame,
            &self.table,
            &self.grids,
            &mut self.first,
            &mut self.second,
            &mut self.sigmas,
            &mut self.out,
        )
    }

    fn lengths(&self) -> Lengths {
        let length = |slice: &[f32]| slice.len() as i128;
        Lengths {
            grids: length(&self.grids),
            first: length(&self.first),
            second: length(&self.second),
            sigmas: length(&self.sigmas),
            out: length(&self.out),
        }
    }

    /// The expected number.
    pub fn expected(&self) -> u32 {
        self.number(self.lengths())
    }

    /// The expected number with these lengths.
    fn number(&self, lengths: Lengths) -> u32 {
        expected::smooth_number(self.setup, self.frame, &self.table, lengths)
    }

    /// Makes the buffers what an accepted call leaves (17.4), by a run with bands of this height.
    fn run(&mut self, widened: Region, band_height: u32) {
        let setup = Setup {
            planes: self.setup.planes,
            settings: self.setup.settings,
            band_height,
            ..Setup::whole(widened)
        };
        let (first, second, sigmas) = (&mut self.first, &mut self.second, &mut self.sigmas);
        let started = start(
            setup, self.frame, &self.table, &self.grids, first, second, sigmas,
        );
        let mut run = started.value().expect("an accepted start");
        for _ in 0..setup.settings.gabor.enabled + setup.settings.epf.iters {
            for k in 0..widened.height.div_ceil(band_height) {
                run = band(run, sigmas, first, second, k)
                    .value()
                    .expect("an accepted band");
            }
            run = advance(run).value().expect("an accepted advance");
        }
        let mut whole = vec![0.0; widened.samples_in(setup.planes)];
        accepted(result(run, first, second, &mut whole)).expect("a finished run");
        self.out = part(widened, &whole, self.setup.wanted);
    }

    /// The buffers that an accepted call writes.
    fn written(&self) -> [(&'static str, &[f32]); 4] {
        [
            ("first", &self.first),
            ("second", &self.second),
            ("sigmas", &self.sigmas),
            ("out", &self.out),
        ]
    }

    /// The first argument that differs from the expected one. `nans` says whether NaNs with other bits differ.
    fn differing(&self, expected: &Self, nans: Nans) -> Option<&'static str> {
        if *black_box(&self.table) != expected.table {
            return Some("table");
        }
        if !same(&self.grids, &expected.grids, Nans::Kept) {
            return Some("grids");
        }
        let pairs = self.written().into_iter().zip(expected.written());
        let mut differing =
            pairs.filter(|((_, given), (_, expected))| !same(given, expected, nans));
        differing.next().map(|((name, _), _)| name)
    }
}

/// How NaNs are compared.
#[derive(Clone, Copy)]
pub enum Nans {
    /// By their bits.
    Kept,
    /// Any NaN equals any other.
    Alike,
}

pub fn same(a: &[f32], b: &[f32], nans: Nans) -> bool {
    // The compiler may assume that a shared slice is unchanged; this makes it read the slice again.
    let (a, b) = (black_box(a), black_box(b));
    let alike = |a: f32, b: f32| match nans {
        Nans::Kept => false,
        Nans::Alike => a.is_nan() && b.is_nan(),
    };
    a.len() == b.len()
        && a.iter()
            .zip(b)
            .all(|(a, b)| a.to_bits() == b.to_bits() || alike(*a, *b))
}

/// The samples of a part of a region, plane by plane, from as many planes as there are.
pub fn part(region: Region, samples: &[f32], part: Region) -> Vec<f32> {
    rows(region, samples.len(), part)
        .flat_map(|row| &samples[row])
        .copied()
        .collect()
}

/// Lays the samples of a part into the planes of a region.
pub fn lay(region: Region, samples: &mut [f32], part: Region, given: &[f32]) {
    let rows = rows(region, samples.len(), part);
    for (row, given) in rows.zip(given.chunks_exact(part.width as usize)) {
        samples[row].copy_from_slice(given);
    }
}

/// Where each row of a part of a region lies in its planes, which have so many samples together.
fn rows(region: Region, samples: usize, part: Region) -> impl Iterator<Item = Range<usize>> {
    let (width, height) = (region.width as usize, region.height as usize);
    let left = part.left.abs_diff(region.left) as usize;
    let top = part.top.abs_diff(region.top) as usize;
    let rows = (0..samples / (width * height)).flat_map(move |plane| {
        (0..part.height as usize).map(move |row| (plane * height + top + row) * width + left)
    });
    rows.map(move |start| start..start + part.width as usize)
}

/// Compares the widened rectangle of a setup.
pub fn compare_widened(report: &mut Report, setup: LoupeSetup) {
    let expected = expected::widened_answer(setup);
    let given = loupe_widened(setup);
    report.call(WIDENED, expected.number, (given, expected), || {
        format!("{setup:?}")
    });
}

/// Compares a call. If it is accepted, all buffers must be those of a run over the widened rectangle, and the
/// answer is what it wrote to `out`; if it is refused, every bit must stay.
pub fn compare(report: &mut Report, call: &Call, band_height: u32) -> Option<Vec<f32>> {
    let number = call.expected();
    let (mut given, mut expected) = (call.clone(), call.clone());
    let answer = given.smooth();
    let nans = if number == 0 {
        expected.run(expected::widened_answer(call.setup).region, band_height);
        Nans::Alike
    } else {
        Nans::Kept
    };
    let wrong = given.differing(&expected, nans);
    let answers = ((answer, wrong), (number, None));
    report.call(SMOOTH, number, answers, || format!("{call:?}"));
    (number == 0).then_some(given.out)
}

/// Compares `Loupe` on the arguments of a call; `out` is what the call wrote, if it was accepted. `Loupe` makes
/// all buffers but the first set itself, and asks for that only if there is a widened rectangle.
pub fn compare_loupe(report: &mut Report, call: &Call, out: Option<&[f32]>) {
    let given = call.lengths();
    let [_, sigmas, wanted] = expected::required_lengths(call.setup);
    let number = call.number(Lengths {
        second: given.first,
        sigmas: sigmas.unwrap_or(0),
        out: wanted.unwrap_or(0),
        ..given
    });
    let widened = expected::widened_answer(call.setup);
    let expected_planes = (widened.number == 0).then_some(widened.region);

    let loupe = Loupe {
        whole: call.setup.whole,
        planes: call.setup.planes,
        settings: call.setup.settings,
        frame: call.frame,
        table: &call.table,
        grids: &call.grids,
    };
    let mut planes = None;
    let shown = loupe.smooth(call.setup.wanted, |r| {
        planes = Some(r);
        call.first.clone()
    });
    let agrees = match (&shown, out) {
        (Ok(shown), Some(out)) => same(shown, out, Nans::Alike),
        _ => true,
    };
    let answer = shown.map_or_else(|refusal| refusal.number(), |_| 0);
    let answers = ((answer, planes, agrees), (number, expected_planes, true));
    report.call(LOUPE, number, answers, || format!("{call:?}"));
}

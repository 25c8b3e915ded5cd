//! A pass over rows of its result, by the proved library and by the original. The comparisons of the
//! Gabor-like pass and of the steps share this.

use std::fmt::Debug;

use restoration::PLANES;

use crate::{
    bits,
    picture::{self, Rows, compare_answer, is_written, samples},
    random::Random,
    report::Row,
};

/// The inputs of a pass without the sets.
pub trait Pass: Debug {
    fn place(&self) -> &oracle::Place;

    /// Runs the proved library on the target and answers its number.
    fn ours(&self, rows: Rows, source: &[f32], target: &mut [f32]) -> u32;

    fn planes(&self) -> u32 {
        PLANES
    }

    /// The block sigmas; none if the pass reads none.
    fn sigmas(&self) -> &[f32] {
        &[]
    }

    /// The planes of the result, by the original; for one row of the Gabor-like pass by the rule, and for a
    /// number of planes other than three by the definition (`grey::definition`).
    fn original(&self, source: &[f32]) -> Vec<Vec<f32>>;

    /// The expected number, with sets of these lengths.
    fn number(&self, rows: Rows, sets: [usize; 2]) -> u32;

    fn height(&self) -> u32 {
        picture::result(self.place()).height
    }
}

/// All bands of a pass, each to its own target, and all to one.
pub fn by_bands(pass: &impl Pass, band: u32, source: &[f32], random: &mut Random, row: &mut Row) {
    row.by_bands();
    let read = Read::by(pass, source);
    let before = samples(source.len(), random);
    let result = pass.original(source);
    let height = pass.height();
    let mut all = before.clone();
    for from in (0..height).step_by(band as usize) {
        let rows = (from, height.min(from + band));
        let (mut ours, mut expected) = (before.clone(), before.clone());
        let number = pass.ours(rows, source, &mut ours);
        picture::store(pass.place(), &result, rows, &mut expected);
        let written = |at| is_written(pass.place(), rows, at);
        compare_answer(pass, rows, (number, &ours), (0, &expected), &written, row);
        pass.ours(rows, source, &mut all);
    }
    let mut expected = before;
    picture::store(pass.place(), &result, (0, height), &mut expected);
    let written = |at| is_written(pass.place(), (0, height), at);
    compare_answer(pass, (0, height), (0, &all), (0, &expected), &written, row);
    read.must_be_left(pass, source, row);
}

/// One call, which may be refused. A refused call leaves every bit of its inputs, NaNs included.
pub fn one_call(
    pass: &impl Pass,
    rows: Rows,
    [mut source, mut before]: [Vec<f32>; 2],
    random: &mut Random,
    row: &mut Row,
) {
    let number = pass.number(rows, [source.len(), before.len()]);
    row.of_planes(pass.planes(), number);
    if number != 0 {
        bits::sprinkle(&mut source, random);
        bits::sprinkle(&mut before, random);
    }
    let read = Read::by(pass, &source);
    let mut ours = before.clone();
    let given = pass.ours(rows, &source, &mut ours);
    let mut expected = before;
    if number == 0 {
        picture::store(pass.place(), &pass.original(&source), rows, &mut expected);
    }
    let written = |at| number == 0 && is_written(pass.place(), rows, at);
    compare_answer(
        pass,
        rows,
        (given, &ours),
        (number, &expected),
        &written,
        row,
    );
    read.must_be_left(pass, &source, row);
}

/// Copies of the buffers that a pass reads.
struct Read {
    source: Vec<f32>,
    sigmas: Vec<f32>,
}

impl Read {
    fn by(pass: &impl Pass, source: &[f32]) -> Self {
        Self {
            source: source.to_vec(),
            sigmas: pass.sigmas().to_vec(),
        }
    }

    /// The buffers still have the same bits.
    fn must_be_left(&self, pass: &impl Pass, source: &[f32], row: &mut Row) {
        let pairs = [
            ("source", &self.source[..], source),
            ("sigmas", &self.sigmas, pass.sigmas()),
        ];
        for (name, before, after) in pairs {
            if let Some(at) = bits::first_change(before, after) {
                row.differs(&(pass, name, at), &"changed", &"left");
            }
        }
    }
}

#[cfg(test)]
mod tests {
    use super::*;

    /// A pass over one sample that is always refused, and may flip a bit of a NaN in the target.
    #[derive(Debug)]
    struct Refused {
        place: oracle::Place,
        flips: bool,
    }

    impl Pass for Refused {
        fn place(&self) -> &oracle::Place {
            &self.place
        }

        fn ours(&self, _: Rows, _: &[f32], target: &mut [f32]) -> u32 {
            if self.flips {
                target[0] = f32::from_bits(target[0].to_bits() ^ 1 << 31);
            }
            9
        }

        fn original(&self, source: &[f32]) -> Vec<Vec<f32>> {
            picture::planes(source).into()
        }

        fn number(&self, _: Rows, _: [usize; 2]) -> u32 {
            9
        }
    }

    #[test]
    fn a_refusal_that_changes_a_nan_is_noticed() {
        let random = &mut Random::for_name("refused");
        let one = oracle::Region::with_size(1, 1);
        for flips in [false, true] {
            let place = oracle::Place {
                image: one,
                filter: one,
                preserve_outside: true,
            };
            let mut row = Row::new("refused", "one call");
            let sets = [vec![0.0; 3], vec![0.0; 3]];
            one_call(&Refused { place, flips }, (0, 1), sets, random, &mut row);
            assert_eq!(row.differing(), u64::from(flips));
        }
    }
}

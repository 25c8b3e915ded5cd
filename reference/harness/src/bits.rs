//! Buffers compared by their bits. The contracts do not distinguish NaNs, so only this comparison, with
//! NaNs of many kinds in every buffer, shows that a refused call changes no bit.

use core::hint::black_box;

use crate::random::Random;

/// Bits of a NaN: exponent, sign, and the rest (quiet bit and payload), which is not 0.
const NAN: u32 = 0x7F80_0000;
const SIGN: u32 = 0x8000_0000;
const REST: u32 = 0x007F_FFFF;
/// How many places of a buffer get a NaN, beside the first and the last.
const NANS: usize = 6;

/// Same length and same bits.
pub fn same(a: &[f32], b: &[f32]) -> bool {
    // The compiler may assume that a shared slice is unchanged; this makes it read the slice again.
    let (a, b) = (black_box(a), black_box(b));
    let changed = |changed, (a, b): (&f32, &f32)| changed | a.to_bits() ^ b.to_bits();
    a.len() == b.len() && a.iter().zip(b).fold(0, changed) == 0
}

/// The first index at which the bits differ or one buffer ends.
pub fn first_change(a: &[f32], b: &[f32]) -> Option<usize> {
    if same(a, b) {
        return None;
    }
    let differs = |(a, b): (&f32, &f32)| a.to_bits() != b.to_bits();
    let ended = (a.len() != b.len()).then_some(a.len().min(b.len()));
    a.iter().zip(b).position(differs).or(ended)
}

/// Any NaN: of either sign, quiet or signalling, with any payload.
pub fn nan(random: &mut Random) -> f32 {
    let bits = random.next() as u32;
    f32::from_bits(NAN | bits & SIGN | (bits & REST).max(1))
}

/// Puts NaNs in the first place, in the last, and in some between.
pub fn sprinkle(buffer: &mut [f32], random: &mut Random) {
    let Some(last) = buffer.len().checked_sub(1) else {
        return;
    };
    let between: [usize; NANS] = core::array::from_fn(|_| random.within(0, last as i128) as usize);
    for at in between.into_iter().chain([0, last]) {
        buffer[at] = nan(random);
    }
}

#[cfg(test)]
mod tests {
    use super::*;

    #[test]
    fn one_nan_for_another_is_a_change() {
        let random = &mut Random::for_name("bits");
        for _ in 0..1_000 {
            let mut before = vec![1.0; 9];
            sprinkle(&mut before, random);
            assert!(before[0].is_nan() && before[8].is_nan());
            let mut after = before.clone();
            assert_eq!(first_change(&before, &after), None);
            let at = random.one_of(&[0, 8]);
            while after[at].to_bits() == before[at].to_bits() {
                after[at] = nan(random);
            }
            assert_eq!(first_change(&before, &after), Some(at));
            assert_eq!(first_change(&before, &before[..at]), Some(at));
        }
    }
}

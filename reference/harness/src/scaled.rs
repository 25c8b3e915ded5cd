//! Pictures at either end of the range of finite floats: all samples subnormal, or all near overflow. All
//! samples of a picture are scaled by the same power of two.

use crate::{picture::plain, random::Random};

/// Which end of the range.
#[derive(Debug, Clone, Copy)]
pub enum End {
    Subnormal,
    NearOverflow,
}

pub const ENDS: [End; 2] = [End::Subnormal, End::NearOverflow];

/// The largest sample before scaling; the smallest is 1. 2 - 2^-22 stays below 2 even after rounding to
/// the smallest subnormal.
const MOST: f32 = 2.0 - 1.0 / (1 << 22) as f32;

/// The power of two that a picture's samples are multiplied by.
#[derive(Debug, Clone, Copy)]
pub struct Scale {
    end: End,
    power: i32,
}

impl End {
    pub fn name(self) -> &'static str {
        match self {
            Self::Subnormal => "subnormal",
            Self::NearOverflow => "near overflow",
        }
    }

    /// A power with which all samples are subnormal, or one with which all are finite but the sum of a few
    /// may not be.
    pub fn draw(self, random: &mut Random) -> Scale {
        let (least, most) = self.powers();
        let power = random.within(least.into(), most.into()) as i32;
        Scale { end: self, power }
    }

    fn powers(self) -> (i32, i32) {
        match self {
            Self::Subnormal => (-149, -127),
            Self::NearOverflow => (122, 127),
        }
    }

    fn holds(self, sample: f32) -> bool {
        match self {
            Self::Subnormal => sample.is_subnormal(),
            Self::NearOverflow => sample.is_finite() && sample.abs() >= times(1.0, self.powers().0),
        }
    }
}

impl Scale {
    /// Samples that differ by much or little; all positive, all negative, or of either sign.
    pub fn samples(self, count: usize, random: &mut Random) -> Vec<f32> {
        let depth = random.one_of(&[0.5, 0.05, 0.01, 0.002]);
        let signs: &[f32] = random.one_of(&[&[1.0], &[1.0], &[-1.0], &[1.0, -1.0]]);
        let mut sample = || {
            let size = 1.5 + depth * plain(random);
            times(random.one_of(signs) * size.clamp(1.0, MOST), self.power)
        };
        let samples: Vec<f32> = (0..count).map(|_| sample()).collect();
        assert!(samples.iter().all(|&sample| self.end.holds(sample)));
        samples
    }

    /// Channel scales divided by the power, and sometimes by a little more, so that neighbours have weight.
    /// Finite ones stay finite.
    pub fn channel_scale(self, scale: [f32; 3], random: &mut Random) -> [f32; 3] {
        let more = random.one_of(&[0, 4, 8]);
        scale.map(|scale| {
            let divided = times(scale, -self.power - more);
            if scale.is_finite() {
                divided.clamp(-f32::MAX, f32::MAX)
            } else {
                divided
            }
        })
    }
}

/// A number times a power of two, rounded once.
fn times(number: f32, power: i32) -> f32 {
    (f64::from(number) * 2f64.powi(power)) as f32
}

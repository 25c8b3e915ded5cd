//! The filter header's fields as a table: condition, width, default.

use restoration::{CHANNELS, MAX_HEADER_BYTES};

use super::{
    Ruled,
    numbers::{BITS_RUN_OUT, HALF_NOT_FINITE, KERNEL_NEAR_ZERO, WRONG_LENGTH},
};

/// Fields in order, floats by their bits, and the next bit position.
pub type Read = (Vec<u32>, usize);

struct Bits<'a> {
    bytes: &'a [u8],
    place: u128,
}

impl Bits<'_> {
    fn field(&mut self, width: u32) -> Ruled<u32> {
        let end = self.place + u128::from(width);
        if end > 8 * self.bytes.len() as u128 {
            return Err(BITS_RUN_OUT);
        }
        let mut value: u64 = 0;
        for p in (self.place..end).rev() {
            let byte = self.bytes[(p / 8) as usize];
            value = 2 * value + u64::from(byte) / (1 << (p % 8)) % 2;
        }
        self.place = end;
        Ok(value as u32)
    }

    fn flag(&mut self) -> Ruled<bool> {
        Ok(self.field(1)? == 1)
    }

    fn half(&mut self) -> Ruled<u32> {
        float_of_half(self.field(16)?)
    }

    fn halves(&mut self, count: usize) -> Ruled<Vec<u32>> {
        (0..count).map(|_| self.half()).collect()
    }
}

/// A half as binary32, by its bits.
fn float_of_half(half: u32) -> Ruled<u32> {
    let sign = half >> 15 << 31;
    let exponent = half >> 10 & 31;
    let fraction = half & 1023;
    Ok(match (exponent, fraction) {
        (31, _) => return Err(HALF_NOT_FINITE),
        (0, 0) => sign,
        (0, _) => {
            // fraction × 2^-24 with its highest bit, 2^high, as the leading one.
            let high = fraction.ilog2();
            let below = fraction - (1 << high);
            sign + ((high + 127 - 24) << 23) + (below << (23 - high))
        }
        _ => sign + ((exponent + 127 - 15) << 23) + (fraction << 13),
    })
}

fn read(
    bytes: &[u8],
    place: usize,
    fields: impl FnOnce(&mut Bits) -> Ruled<Vec<u32>>,
) -> Ruled<Read> {
    if bytes.len() > MAX_HEADER_BYTES {
        return Err(WRONG_LENGTH);
    }
    let place = place as u128;
    let mut bits = Bits { bytes, place };
    let fields = fields(&mut bits)?;
    Ok((fields, bits.place as usize))
}

pub fn half(bytes: &[u8], place: usize) -> Ruled<Read> {
    read(bytes, place, |bits| bits.halves(1))
}

pub fn gabor(bytes: &[u8], place: usize) -> Ruled<Read> {
    read(bytes, place, gabor_fields)
}

pub fn epf(bytes: &[u8], place: usize, modular: bool) -> Ruled<Read> {
    read(bytes, place, |bits| epf_fields(bits, modular))
}

pub fn filters(bytes: &[u8], place: usize, modular: bool) -> Ruled<Read> {
    read(bytes, place, |bits| {
        let gabor = gabor_fields(bits)?;
        Ok([gabor, epf_fields(bits, modular)?].concat())
    })
}

/// Enabled, then two weights for each channel.
fn gabor_fields(bits: &mut Bits) -> Ruled<Vec<u32>> {
    if !bits.flag()? {
        return Ok(vec![0; 7]);
    }
    let mut fields = vec![1];
    let custom = bits.flag()?;
    for _ in 0..CHANNELS {
        let pair = if custom {
            bits.halves(2)?
        } else {
            vec![0x3DEB_DE00, 0x3D7A_DFCE]
        };
        let sum = f32::from_bits(pair[0]) + f32::from_bits(pair[1]);
        if custom && (1.0 + sum * 4.0).abs() < 2f32.powi(-23) {
            return Err(KERNEL_NEAR_ZERO);
        }
        fields.extend(pair);
    }
    Ok(fields)
}

/// Enabled, iterations, 8 sharpness values, 3 channel scales, 4 sigma settings, sigma for Modular.
fn epf_fields(bits: &mut Bits, modular: bool) -> Ruled<Vec<u32>> {
    let iterations = bits.field(2)?;
    if iterations == 0 {
        return Ok(vec![0; 18]);
    }
    let mut fields = vec![1, iterations];
    fields.extend(if !modular && bits.flag()? {
        bits.halves(8)?
    } else {
        (0u8..8).map(|n| (f32::from(n) / 7.0).to_bits()).collect()
    });
    fields.extend(if bits.flag()? {
        let scales = bits.halves(CHANNELS)?;
        bits.field(32)?;
        scales
    } else {
        [40.0f32, 5.0, 3.5].map(f32::to_bits).to_vec()
    });
    let custom = bits.flag()?;
    fields.push(if custom && !modular {
        bits.half()?
    } else {
        0.46f32.to_bits()
    });
    fields.extend(if custom {
        bits.halves(3)?
    } else {
        [0.9f32, 6.5, 2.0 / 3.0].map(f32::to_bits).to_vec()
    });
    fields.push(if modular {
        bits.half()?
    } else {
        1f32.to_bits()
    });
    Ok(fields)
}

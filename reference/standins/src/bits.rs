use crate::Error;

/// The bits of a slice from a position on: bit p is bit p mod 8 of byte p / 8; a field's first bit is its
/// lowest.
pub struct Bitstream<'a> {
    bytes: &'a [u8],
    place: usize,
}

impl<'a> Bitstream<'a> {
    /// A stream whose next bit is at `place`, which may be past the end.
    pub fn new(bytes: &'a [u8], place: usize) -> Self {
        Self { bytes, place }
    }

    /// The position of the next bit.
    pub fn place(&self) -> usize {
        self.place
    }

    /// A field of up to 32 bits. If the bits run out the position stays.
    pub fn read_bits(&mut self, count: usize) -> Result<u32, Error> {
        let end = self.place.checked_add(count).ok_or(Error::BitsRunOut)?;
        if end > self.bytes.len() * 8 {
            return Err(Error::BitsRunOut);
        }
        let value = (0..count).fold(0, |value, bit| {
            let p = self.place + bit;
            value | u32::from(self.bytes[p / 8] >> (p % 8) & 1) << bit
        });
        self.place = end;
        Ok(value)
    }

    pub fn read_bool(&mut self) -> Result<bool, Error> {
        Ok(self.read_bits(1)? != 0)
    }

    /// 16 bits as an IEEE 754 half-precision number, converted exactly; exponent field 31 is refused.
    pub fn read_f16_as_f32(&mut self) -> Result<f32, Error> {
        let bits = self.read_bits(16)?;
        let exponent = bits >> 10 & 31;
        if exponent == 31 {
            return Err(Error::HalfNotFinite);
        }
        // Subnormals have the exponent of field 1 and no leading bit; their unit is 2^-24.
        let (scale, lead) = if exponent == 0 {
            (0, 0)
        } else {
            (exponent - 1, 1024)
        };
        let units = u64::from((bits & 1023) + lead) << scale;
        let magnitude = units as f32 / (1 << 24) as f32;
        Ok(if bits >> 15 == 1 {
            -magnitude
        } else {
            magnitude
        })
    }

    /// A number in one of four encodings; no comparison reads one.
    pub fn read_u32<A, B, C, D>(&mut self, _: A, _: B, _: C, _: D) -> Result<u32, Error> {
        Err(Error::NotStoodIn)
    }

    /// A number of up to 64 bits; no comparison reads one.
    pub fn read_u64(&mut self) -> Result<u64, Error> {
        Err(Error::NotStoodIn)
    }
}

/// A number of bits, in the description of a number.
pub struct U(pub usize);

impl core::ops::Add<U> for u32 {
    type Output = (u32, U);

    fn add(self, bits: U) -> (u32, U) {
        (self, bits)
    }
}

#[cfg(test)]
mod tests {
    use super::*;

    fn half(bits: u16) -> Result<u32, Error> {
        Bitstream::new(&bits.to_le_bytes(), 0)
            .read_f16_as_f32()
            .map(f32::to_bits)
    }

    #[test]
    fn halves_of_document_01() {
        assert_eq!(half(0x0001), Ok(0x3380_0000));
        assert_eq!(half(0x03FF), Ok(0x387F_C000));
        assert_eq!(half(0x7BFF), Ok(0x477F_E000));
        assert_eq!(half(0x8000), Ok(0x8000_0000));
        assert_eq!(half(0x7C00), Err(Error::HalfNotFinite));
    }

    #[test]
    fn lowest_bit_first() {
        let mut bits = Bitstream::new(&[0b1010_0110, 0b0000_0001], 1);
        assert_eq!(bits.read_bits(2), Ok(3));
        assert_eq!(bits.read_bits(6), Ok(0b11_0100));
        assert_eq!(bits.place(), 9);
        assert_eq!(bits.read_bits(8), Err(Error::BitsRunOut));
        assert_eq!(
            Bitstream::new(&[0; 4], usize::MAX).read_bool(),
            Err(Error::BitsRunOut)
        );
    }
}

//! Random numbers. The generator is that of `restoration`'s own tests.

#[path = "../../../host/restoration/tests/common/splitmix.rs"]
mod splitmix;

pub use splitmix::Random;

impl Random {
    /// A generator of its own for each name.
    pub fn for_name(name: &str) -> Self {
        // FNV-1a of the name.
        let seed = name.bytes().fold(0xCBF2_9CE4_8422_2325, |hash, byte| {
            (hash ^ u64::from(byte)).wrapping_mul(0x0100_0000_01B3)
        });
        Self::new(seed)
    }

    /// A number from `least` to `most`, which differ by at most 2^64 - 1.
    pub fn within(&mut self, least: i128, most: i128) -> i128 {
        let count = (most - least + 1) as u128;
        least + (u128::from(self.next()).wrapping_mul(count) >> 64) as i128
    }

    pub fn one_of<T: Copy>(&mut self, list: &[T]) -> T {
        list[self.within(0, list.len() as i128 - 1) as usize]
    }
}

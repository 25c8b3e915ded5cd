//! Random numbers and samples.

#[path = "splitmix.rs"]
mod splitmix;

pub use splitmix::Random;

impl Random {
    /// A number below a bound that is not 0.
    pub fn below(&mut self, bound: usize) -> usize {
        (self.next() % bound as u64) as usize
    }

    pub fn one_of<T: Copy>(&mut self, list: &[T]) -> T {
        list[self.below(list.len())]
    }

    /// The bits of a sample: any, or of a NaN of either sign, quiet or signalling.
    pub fn pattern(&mut self) -> u32 {
        let bits = self.next() as u32;
        if self.once_in(2) {
            bits | 0x7F80_0001
        } else {
            bits
        }
    }

    pub fn patterns(&mut self, count: usize) -> Vec<u32> {
        (0..count).map(|_| self.pattern()).collect()
    }
}

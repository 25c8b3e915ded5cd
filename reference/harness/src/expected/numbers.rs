//! The numbers of refusals, from `restoration`.

use restoration::Refusal;

pub const BITS_RUN_OUT: u32 = Refusal::BitsRunOut as u32;
pub const HALF_NOT_FINITE: u32 = Refusal::HalfNotFinite as u32;
pub const KERNEL_NEAR_ZERO: u32 = Refusal::KernelNearZero as u32;
pub const OUT_OF_LIMITS: u32 = Refusal::OutOfLimits as u32;
pub const NOT_INSIDE: u32 = Refusal::NotInside as u32;
pub const NOT_ON_BLOCKS: u32 = Refusal::NotOnBlocks as u32;
pub const WRONG_LENGTH: u32 = Refusal::WrongLength as u32;
pub const BLOCK_NOT_HELD: u32 = Refusal::BlockNotHeld as u32;
pub const OUT_OF_RANGE: u32 = Refusal::OutOfRange as u32;
pub const BAND_NOT_OPEN: u32 = Refusal::BandNotOpen as u32;
pub const PASS_NOT_DONE: u32 = Refusal::PassNotDone as u32;
pub const WANTED_OUTSIDE: u32 = Refusal::WantedOutside as u32;

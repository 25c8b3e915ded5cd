/// One error type for all the crates that the files refer to.
#[derive(Debug, Clone, Copy, PartialEq, Eq)]
pub enum Error {
    /// A field reaches past the last bit (number 1).
    BitsRunOut,
    /// A half-precision number has exponent field 31 (number 2).
    HalfNotFinite,
    /// A check in a file fails; only `Gabor::parse` has one (number 3).
    ValidationFailed(&'static str),
    /// A number is not in the list of an enumeration.
    InvalidEnum { name: &'static str, value: u32 },
    /// A task of the renderer has no result.
    NotSupported(&'static str),
    /// A part of the original that no comparison reaches.
    NotStoodIn,
}

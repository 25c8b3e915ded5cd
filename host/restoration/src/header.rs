//! Readers of filter headers. Each starts at a bit position of a byte slice and answers the next one.

use crate::boundary::{answers, defaults, entries};

#[repr(C)]
#[derive(Debug, Clone, Copy, PartialEq)]
pub struct Gabor {
    pub enabled: bool,
    pub weights: [[f32; 2]; 3],
}

#[repr(C)]
#[derive(Debug, Clone, Copy, PartialEq)]
pub struct EpfSigma {
    pub quant_mul: f32,
    pub pass0_sigma_scale: f32,
    pub pass2_sigma_scale: f32,
    pub border_sad_mul: f32,
}

impl EpfSigma {
    /// The values of a header that has no custom ones.
    pub const DEFAULT: Self = Self {
        quant_mul: 0.46,
        pass0_sigma_scale: 0.9,
        pass2_sigma_scale: 6.5,
        border_sad_mul: 2.0 / 3.0,
    };
}

defaults! { EpfSigma }

#[repr(C)]
#[derive(Debug, Clone, Copy, PartialEq)]
pub struct EdgePreservingFilter {
    pub enabled: bool,
    pub iters: u32,
    pub sharp_lut: [f32; 8],
    pub channel_scale: [f32; 3],
    pub sigma: EpfSigma,
    pub sigma_for_modular: f32,
}

/// Both filters of a header.
#[repr(C)]
#[derive(Debug, Clone, Copy, PartialEq)]
pub struct RestorationFilter {
    pub gabor: Gabor,
    pub epf: EdgePreservingFilter,
}

/// How a frame is encoded. The edge-preserving filter's header fields depend on it.
#[derive(Debug, Clone, Copy, PartialEq, Eq)]
pub enum Encoding {
    VarDct,
    Modular,
}

answers! {
    HalfAnswer { value: f32, next: usize }
    GaborAnswer { gabor: Gabor, next: usize }
    EpfAnswer { epf: EdgePreservingFilter, next: usize }
    RestorationAnswer { filter: RestorationFilter, next: usize }
}

entries! {
    /// ```
    /// // Specification 14.3: halves 0001 and 7C00.
    /// let (value, next) = restoration::read_half(&[0x01, 0x00], 0).value()?;
    /// assert_eq!((value.to_bits(), next), (0x3380_0000, 16));
    /// let refused = restoration::read_half(&[0x00, 0x7C], 0).value();
    /// assert_eq!(refused, Err(restoration::Refusal::HalfNotFinite));
    /// # Ok::<(), restoration::Refusal>(())
    /// ```
    read_half = restoration_read_half(bytes: &[u8], at: usize) -> HalfAnswer;

    /// ```
    /// // Specification 14.4: weights -1/8, -1/8 and 1/4, 0, after the enabled and custom bits.
    /// let header = |w0: u128, w1: u128| {
    ///     let pair = w0 | w1 << 16;
    ///     (0b11 | pair << 2 | pair << 34 | pair << 66).to_le_bytes()
    /// };
    /// let refused = restoration::read_gabor(&header(0xB000, 0xB000), 0).value();
    /// assert_eq!(refused, Err(restoration::Refusal::KernelNearZero));
    /// let (gabor, next) = restoration::read_gabor(&header(0x3400, 0), 0).value()?;
    /// assert_eq!((gabor.weights, next), ([[0.25, 0.0]; 3], 98));
    /// # Ok::<(), restoration::Refusal>(())
    /// ```
    read_gabor = restoration_read_gabor(bytes: &[u8], at: usize) -> GaborAnswer;
    read_epf_vardct = restoration_read_epf_vardct(bytes: &[u8], at: usize) -> EpfAnswer;
    read_epf_modular = restoration_read_epf_modular(bytes: &[u8], at: usize) -> EpfAnswer;
    read_filters_vardct =
        restoration_read_filters_vardct(bytes: &[u8], at: usize) -> RestorationAnswer;
    read_filters_modular =
        restoration_read_filters_modular(bytes: &[u8], at: usize) -> RestorationAnswer;
}

/// The edge-preserving filter of a header.
#[must_use = "the number alone says whether the call was refused"]
pub fn read_epf(bytes: &[u8], place: usize, encoding: Encoding) -> EpfAnswer {
    match encoding {
        Encoding::VarDct => read_epf_vardct(bytes, place),
        Encoding::Modular => read_epf_modular(bytes, place),
    }
}

/// Both filters of a header, the Gabor-like one first.
///
/// ```
/// use restoration::Encoding::VarDct;
/// // The Gabor-like filter has two bits here, enabled and custom; the edge filter's bits follow.
/// let bytes = [0b000_11_01];
/// let (gabor, after) = restoration::read_gabor(&bytes, 0).value()?;
/// let (epf, end) = restoration::read_epf(&bytes, after, VarDct).value()?;
/// let (filter, next) = restoration::read_filters(&bytes, 0, VarDct).value()?;
/// assert_eq!((filter.gabor, filter.epf, next), (gabor, epf, end));
/// let refused = restoration::read_filters(&bytes, next, VarDct).value();
/// assert_eq!(refused, Err(restoration::Refusal::BitsRunOut));
/// # Ok::<(), restoration::Refusal>(())
/// ```
#[must_use = "the number alone says whether the call was refused"]
pub fn read_filters(bytes: &[u8], place: usize, encoding: Encoding) -> RestorationAnswer {
    match encoding {
        Encoding::VarDct => read_filters_vardct(bytes, place),
        Encoding::Modular => read_filters_modular(bytes, place),
    }
}

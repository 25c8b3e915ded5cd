//! One pass over some rows of its result: the whole image region if `preserve_outside` is 1, the filter
//! region alone if it is 0.

use crate::{
    EpfSettings, EpfSigma, GaborSettings, Region,
    boundary::{answers, defaults, entries},
};

/// What an edge-preserving step reads of the settings. The default is step 1 with a header's default
/// settings.
#[repr(C)]
#[derive(Debug, Clone, Copy, PartialEq)]
pub struct EpfStep {
    pub step: u32,
    pub channel_scale: [f32; 3],
    pub multiplier: f32,
    pub border_sad_mul: f32,
}

impl EpfStep {
    pub const DEFAULT: Self = Self {
        step: 1,
        channel_scale: EpfSettings::DEFAULT.channel_scale,
        multiplier: 1.0,
        border_sad_mul: EpfSigma::DEFAULT.border_sad_mul,
    };
}

defaults! { EpfStep }

answers! {
    MirrorAnswer { index: usize }
}

entries! {
    /// The index that a filter reads for an offset beyond an edge.
    ///
    /// ```
    /// // Specification 14.1.
    /// let places = [(-1, 1, 0), (-3, 2, 1), (5, 4, 2), (7, 3, 1)];
    /// for (offset, len, place) in places {
    ///     assert_eq!(restoration::mirror(offset, len).value(), Ok(place));
    /// }
    /// ```
    mirror = restoration_mirror(offset: isize, len: usize) -> MirrorAnswer;

    /// The Gabor-like pass over sets of 1 or 3 planes; `enabled` is ignored.
    ///
    /// ```
    /// // Specification 14.6: weights 1/2, 1/4 on a single sample of 16.
    /// let image = restoration::Region::with_size(3, 3);
    /// let settings = restoration::GaborSettings::with_weights([[0.5, 0.25]; 3]);
    /// let plane = [0.0, 0.0, 0.0, 0.0, 16.0, 0.0, 0.0, 0.0, 0.0];
    /// let (source, mut target) = ([plane; 3].concat(), [0.0; 27]);
    /// let number = restoration::gabor_pass(image, image, 3, 1, settings, 0, 3, &source, &mut target);
    /// restoration::accepted(number)?;
    /// let smooth = [1.0, 2.0, 1.0, 2.0, 4.0, 2.0, 1.0, 2.0, 1.0];
    /// assert_eq!(target[..], [smooth; 3].concat());
    /// # Ok::<(), restoration::Refusal>(())
    /// ```
    gabor_pass = restoration_gabor_pass(
        image: Region, filter: Region, planes: u32, preserve_outside: u32, settings: GaborSettings,
        from: u32, to: u32, src: &[f32], dst: &mut [f32]
    ) -> u32;

    /// One step of the edge-preserving filter over sets of 1 or 3 planes, with one sigma per block of the
    /// filter region.
    ///
    /// ```
    /// // Specification 14.8: step 2 copies where the block's sigma is 0.25, not where it is 1.5.
    /// # use restoration::EpfStep;
    /// let image = restoration::Region::with_size(2, 1);
    /// let step = EpfStep { step: 2, channel_scale: [1.0; 3], ..EpfStep::default() };
    /// let source = [5.0, 5.0625, 1.0, 1.0, 1.0, 1.0];
    /// let pass = |sigma| {
    ///     let mut target = [0.0; 6];
    ///     let number = restoration::epf_pass(image, image, 3, 1, step, &[sigma], 0, 1, &source, &mut target);
    ///     restoration::accepted(number).map(|()| target)
    /// };
    /// assert_eq!(pass(0.25)?, source);
    /// assert_ne!(pass(1.5)?, source);
    /// # Ok::<(), restoration::Refusal>(())
    /// ```
    epf_pass = restoration_epf_pass(
        image: Region, filter: Region, planes: u32, preserve_outside: u32, s: EpfStep, sigmas: &[f32],
        from: u32, to: u32, src: &[f32], dst: &mut [f32]
    ) -> u32;
}

//! The calls of a run: start, band, advance and result.

use core::fmt;

use crate::{
    CHANNELS, EdgePreservingFilter, EpfSigma, Frame, GREY_PLANES, Gabor, MAX_BANDS, MAX_SIDE,
    PLANES, Region, RestorationFilter,
    boundary::{answers, defaults, entries},
};

/// Settings of the edge-preserving filter, which is on if `iters` is not 0. The default is that of a
/// header: two iterations.
#[repr(C)]
#[derive(Debug, Clone, Copy, PartialEq)]
pub struct EpfSettings {
    pub iters: u32,
    pub channel_scale: [f32; 3],
    pub sigma: EpfSigma,
    pub sigma_for_modular: f32,
}

impl EpfSettings {
    pub const DEFAULT: Self = Self {
        iters: 2,
        channel_scale: [40.0, 5.0, 3.5],
        sigma: EpfSigma::DEFAULT,
        sigma_for_modular: 1.0,
    };
}

impl From<EdgePreservingFilter> for EpfSettings {
    fn from(read: EdgePreservingFilter) -> Self {
        Self {
            iters: read.iters,
            channel_scale: read.channel_scale,
            sigma: read.sigma,
            sigma_for_modular: read.sigma_for_modular,
            ..Self::DEFAULT
        }
    }
}

/// Settings of the Gabor-like filter. `enabled` is a flag: 0 is off, 1 is on, any other value is
/// refused with 9. The default is that of a header: on, with its default weights.
#[repr(C)]
#[derive(Debug, Clone, Copy, PartialEq)]
pub struct GaborSettings {
    pub enabled: u32,
    pub weights: [[f32; 2]; 3],
}

impl GaborSettings {
    pub const DEFAULT: Self = Self {
        enabled: 1,
        weights: [[0.115_169_525, 0.061_248_592]; CHANNELS],
    };

    /// The filter on with these weights: for each channel the weight of the four nearest neighbours and
    /// that of the four diagonal ones.
    pub const fn with_weights(weights: [[f32; 2]; CHANNELS]) -> Self {
        Self {
            weights,
            ..Self::DEFAULT
        }
    }
}

impl From<Gabor> for GaborSettings {
    fn from(read: Gabor) -> Self {
        Self {
            enabled: read.enabled.into(),
            ..Self::with_weights(read.weights)
        }
    }
}

/// Settings of both filters. The default is that of ISO/IEC 18181-1 for a frame header without filter
/// settings of its own: the Gabor-like filter and two iterations of the edge-preserving filter.
///
/// ```
/// use restoration::{EpfSettings, Settings};
/// // A header with the Gabor-like filter on, two iterations and no custom values.
/// let (filter, _) = restoration::read_filters_vardct(&[0b000_10_01], 0).value()?;
/// assert_eq!(Settings::default(), filter.into());
/// assert_eq!(restoration::margin(Settings::default()).value(), Ok(4));
/// // Three iterations and no Gabor-like filter.
/// let epf = EpfSettings { iters: 3, ..EpfSettings::default() };
/// let settings = Settings { epf, ..Settings::OFF };
/// assert_eq!(restoration::margin(settings).value(), Ok(6));
/// # Ok::<(), restoration::Refusal>(())
/// ```
#[repr(C)]
#[derive(Debug, Clone, Copy, PartialEq)]
pub struct Settings {
    pub gabor: GaborSettings,
    pub epf: EpfSettings,
}

impl Settings {
    pub const DEFAULT: Self = Self {
        gabor: GaborSettings::DEFAULT,
        epf: EpfSettings::DEFAULT,
    };

    /// Both filters off; weights, scales and sigma settings are the default ones.
    pub const OFF: Self = Self {
        gabor: GaborSettings {
            enabled: 0,
            ..GaborSettings::DEFAULT
        },
        epf: EpfSettings {
            iters: 0,
            ..EpfSettings::DEFAULT
        },
        ..Self::DEFAULT
    };
}

impl From<RestorationFilter> for Settings {
    fn from(read: RestorationFilter) -> Self {
        Self {
            gabor: read.gabor.into(),
            epf: read.epf.into(),
            ..Self::DEFAULT
        }
    }
}

/// What to filter, and how. The default has three planes, the default settings, the filter region as the
/// result, and bands of 64 rows, with which the tallest picture has [`MAX_BANDS`]. Its regions are empty, and
/// `start` refuses it until they are set.
///
/// ```
/// use restoration::{Frame, Region, Setup, Smoothing};
/// // Filters the right half of a picture and keeps the left half.
/// let image = Region::with_size(32, 16);
/// let filter = Region { left: 16, width: 16, ..image };
/// let setup = Setup { filter, preserve_outside: 1, ..Setup::whole(image) };
/// let planes: Vec<f32> = (0..3 * 32 * 16u16).map(f32::from).collect();
/// let frame = Frame::with_size(32, 16);
/// let smooth = Smoothing::start(setup, frame, &[0; 3], &[], planes.clone())?.finish()?;
/// assert_eq!(smooth[..16], planes[..16]);
/// assert_ne!(smooth[16..32], planes[16..32]);
/// # Ok::<(), restoration::Refusal>(())
/// ```
#[repr(C)]
#[derive(Debug, Clone, Copy, PartialEq)]
pub struct Setup {
    pub image: Region,
    pub filter: Region,
    /// How many planes each set has: 1 for a grey picture, which is filtered with the weights and the scale
    /// of the first channel, or 3.
    pub planes: u32,
    /// 1: the result is the whole image region. 0: it is the filter region alone.
    pub preserve_outside: u32,
    pub settings: Settings,
    pub band_height: u32,
}

impl Setup {
    pub const DEFAULT: Self = Self {
        image: Region::with_size(0, 0),
        filter: Region::with_size(0, 0),
        planes: PLANES,
        preserve_outside: 0,
        settings: Settings::DEFAULT,
        band_height: MAX_SIDE / MAX_BANDS as u32,
    };

    /// All samples of an image of three planes, with the default settings.
    pub const fn whole(image: Region) -> Self {
        Self {
            image,
            filter: image,
            ..Self::DEFAULT
        }
    }

    /// All samples of a grey image, with the default settings.
    ///
    /// ```
    /// use restoration::{Frame, GaborSettings, Region, Settings, Setup, Smoothing};
    /// // The other channels' weights are not read.
    /// let gabor = GaborSettings::with_weights([[0.5, 0.25], [f32::NAN; 2], [f32::NAN; 2]]);
    /// let settings = Settings { gabor, ..Settings::OFF };
    /// let setup = Setup { settings, ..Setup::grey(Region::with_size(3, 1)) };
    /// let plane = vec![0.0, 16.0, 0.0];
    /// let smooth = Smoothing::start(setup, Frame::with_size(3, 1), &[0; 3], &[], plane)?.finish()?;
    /// assert_eq!(smooth, [4.0, 8.0, 4.0]);
    /// # Ok::<(), restoration::Refusal>(())
    /// ```
    pub const fn grey(image: Region) -> Self {
        Self {
            planes: GREY_PLANES,
            ..Self::whole(image)
        }
    }
}

/// The record of a run. The default is that of a run that has just started, with the default setup,
/// whose image has no rows and so no bands: with another setup its number of bands left is another.
#[repr(C)]
#[derive(Clone, Copy, PartialEq)]
pub struct Run {
    pub setup: Setup,
    /// How many passes are finished.
    pub pass: u32,
    /// How many bands of this pass are not done; 0 if the run is finished. A record in which it is any
    /// other number is refused with 9.
    pub bands_left: u32,
    /// 1 for each band of this pass that is done.
    pub done: [u8; 256],
}

impl Run {
    pub const DEFAULT: Self = Self {
        setup: Setup::DEFAULT,
        pass: 0,
        bands_left: 0,
        // This holds the length in the declaration, a number for tools/header, to the constant.
        done: [0; MAX_BANDS],
    };
}

defaults! { EpfSettings GaborSettings Settings Setup Run }

impl fmt::Debug for Run {
    fn fmt(&self, f: &mut fmt::Formatter) -> fmt::Result {
        let flags = (0..).zip(self.done);
        let done: Vec<(usize, u8)> = flags.filter(|&(_, flag)| flag > 0).collect();
        f.debug_struct("Run")
            .field("setup", &self.setup)
            .field("pass", &self.pass)
            .field("bands_left", &self.bands_left)
            .field("done", &done)
            .finish()
    }
}

answers! {
    MarginAnswer { margin: u32 }
    RunAnswer { run: Run }
}

entries! {
    /// How many samples the passes of a run read beyond a sample, in each direction. Refused with 9 if
    /// the Gabor-like filter's flag or the iterations are out of range.
    ///
    /// ```
    /// // A header of seven bits: the Gabor-like filter and three iterations, default settings. The
    /// // margin is 1 + 6 (`crates/run_passes/specs/Plan.antt`).
    /// let (filter, next) = restoration::read_filters_vardct(&[0b000_11_01], 0).value()?;
    /// assert_eq!((next, restoration::margin(filter.into()).value()), (7, Ok(7)));
    /// # Ok::<(), restoration::Refusal>(())
    /// ```
    margin = restoration_margin(settings: Settings) -> MarginAnswer;

    /// Starts a run: checks all inputs and fills in the block sigmas. `table` and `grids` are those of
    /// [`crate::block_sigmas`].
    ///
    /// ```
    /// # use restoration::*;
    /// // Specification 14.6: weights 1/2, 1/4 on a single sample of 16; one band per row.
    /// let gabor = GaborSettings::with_weights([[0.5, 0.25]; 3]);
    /// let settings = Settings { gabor, ..Settings::OFF };
    /// let setup = Setup { settings, band_height: 1, ..Setup::whole(Region::with_size(3, 3)) };
    /// let frame = Frame::with_size(3, 3);
    /// let plane = [0.0, 0.0, 0.0, 0.0, 16.0, 0.0, 0.0, 0.0, 0.0];
    /// let (mut first, mut second, mut out) = ([plane; 3].concat(), [0.0; 27], [0.0; 27]);
    /// let mut run = start(setup, frame, &[0; 3], &[], &mut first, &second, &mut []).value()?;
    /// for k in [2, 0, 1] {
    ///     run = band(run, &[], &mut first, &mut second, k).value()?;
    /// }
    /// run = advance(run).value()?;
    /// accepted(result(run, &first, &second, &mut out))?;
    /// assert_eq!(out[..], [[1.0, 2.0, 1.0, 2.0, 4.0, 2.0, 1.0, 2.0, 1.0]; 3].concat());
    /// # Ok::<(), Refusal>(())
    /// ```
    start = restoration_start(
        setup: Setup, frame: Frame, table: &[u32], grids: &[f32],
        first: &mut [f32], second: &[f32], sigmas: &mut [f32]
    ) -> RunAnswer;

    /// Runs the next pass over the rows of band `k`, from one set of planes to the other.
    band = restoration_band(
        run: Run, sigmas: &[f32], first: &mut [f32], second: &mut [f32], k: u32
    ) -> RunAnswer;

    /// Goes on to the next pass when all bands of this one are done.
    advance = restoration_advance(run: Run) -> RunAnswer;

    /// Copies the result of a finished run to `out`, one plane after another.
    result = restoration_result(run: Run, first: &[f32], second: &[f32], out: &mut [f32]) -> u32;
}

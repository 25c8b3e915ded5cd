//! A rectangle of a picture, filtered with what it needs around it.

use crate::{
    BLOCK, Frame, GREY_PLANES, PLANES, Refusal, Region, RegionAnswer, Settings, accepted,
    boundary::{defaults, entries},
};

/// A rectangle to filter, and the picture that it is part of. The default has three planes and the default
/// settings; its regions are empty, and it is refused until they are set.
#[repr(C)]
#[derive(Debug, Clone, Copy, PartialEq)]
pub struct LoupeSetup {
    /// The filter region of the whole picture.
    pub whole: Region,
    /// The rectangle to filter, inside the whole.
    pub wanted: Region,
    /// How many planes the picture has, 1 or 3.
    pub planes: u32,
    pub settings: Settings,
}

impl LoupeSetup {
    pub const DEFAULT: Self = Self {
        whole: Region::with_size(0, 0),
        wanted: Region::with_size(0, 0),
        planes: PLANES,
        settings: Settings::DEFAULT,
    };
}

defaults! { LoupeSetup }

entries! {
    /// The rectangle whose planes [`loupe_smooth`] takes: the wanted one with the margin on each side,
    /// left and top moved down to multiples of 8, clipped to the whole.
    ///
    /// ```
    /// use restoration::{EpfSettings, LoupeSetup, Region, Settings, loupe_widened};
    /// let epf = EpfSettings { iters: 3, ..EpfSettings::default() };
    /// let setup = LoupeSetup {
    ///     whole: Region::with_size(100, 80),
    ///     wanted: Region { left: 20, top: 30, width: 6, height: 45 },
    ///     settings: Settings { epf, ..Settings::default() },
    ///     ..LoupeSetup::default()
    /// };
    /// // The margin is 7: 20 - 7 is 13, moved down to 8, and 26 + 7 is 33.
    /// let widened = Region { left: 8, top: 16, width: 25, height: 64 };
    /// assert_eq!(loupe_widened(setup).value(), Ok(widened));
    /// ```
    loupe_widened = restoration_loupe_widened(setup: LoupeSetup) -> RegionAnswer;

    /// Filters the wanted rectangle: `first` has the planes of the widened one, and `out` gets the wanted
    /// samples. `first`, `second` and `sigmas` are overwritten. [`Loupe`] allocates the buffers.
    loupe_smooth = restoration_loupe_smooth(
        setup: LoupeSetup,
        frame: Frame,
        table: &[u32],
        grids: &[f32],
        first: &mut [f32],
        second: &mut [f32],
        sigmas: &mut [f32],
        out: &mut [f32],
    ) -> u32;
}

/// Filters rectangles of a picture, one call per rectangle, without filtering the rest of it. The samples are
/// those that the whole picture would have there with the same settings, frame, table and grids: the block sigmas
/// of the widened rectangle are then the whole's (Specification 7.6 and 17.6).
///
/// ```
/// use restoration::{Frame, Loupe, Region, Settings, Setup, Smoothing};
/// let whole = Region::with_size(64, 48);
/// let sample = |x: i32, y: i32| ((x * 7 + y * 5) % 13) as f32;
/// // The caller's decoder: three planes of any rectangle of the picture.
/// let decoder = |r: Region| {
///     let rows = r.top..r.top + r.height as i32;
///     let columns = r.left..r.left + r.width as i32;
///     let plane = rows.flat_map(|y| columns.clone().map(move |x| sample(x, y)));
///     plane.collect::<Vec<f32>>().repeat(3)
/// };
/// let frame = Frame::with_size(64, 48);
/// let settings = Settings::default();
/// let loupe = Loupe { whole, planes: 3, settings, frame, table: &[0; 3], grids: &[] };
/// let wanted = Region { left: 30, top: 20, width: 2, height: 1 };
/// let shown = loupe.smooth(wanted, decoder)?;
/// // The same samples as from the whole picture.
/// let smoothing = Smoothing::start(Setup::whole(whole), frame, &[0; 3], &[], decoder(whole))?;
/// assert_eq!(shown[..2], smoothing.finish()?[20 * 64 + 30..][..2]);
/// # Ok::<(), restoration::Refusal>(())
/// ```
#[derive(Debug, Clone, Copy)]
pub struct Loupe<'a> {
    /// The filter region of the whole picture.
    pub whole: Region,
    /// How many planes the picture has, 1 or 3.
    pub planes: u32,
    pub settings: Settings,
    pub frame: Frame,
    /// The group table and the grids, as [`crate::block_sigmas`] takes them.
    pub table: &'a [u32],
    pub grids: &'a [f32],
}

impl Loupe<'_> {
    /// The wanted samples, plane by plane. `planes` supplies the planes of the rectangle that they need,
    /// which [`loupe_widened`] computes; if that is refused, `planes` is not called.
    ///
    /// A refusal is always that of [`loupe_smooth`], with the planes as supplied and the other buffers as
    /// long as they have to be.
    pub fn smooth(
        &self,
        wanted: Region,
        planes: impl FnOnce(Region) -> Vec<f32>,
    ) -> Result<Vec<f32>, Refusal> {
        let setup = LoupeSetup {
            whole: self.whole,
            wanted,
            planes: self.planes,
            settings: self.settings,
        };
        // A refusal here is not returned: `loupe_smooth` refuses the setup too, but checks more, and some
        // of that first. After 4, 15 and 6 it compares no lengths. After 9 for a setting it compares that of
        // `out`, and those of the other buffers not at all or, of `sigmas` with the edge filter off, with 0.
        // After 9 for the number of planes alone, which the widened rectangle does not depend on, it compares
        // that of `sigmas`; then none of `out` is needed, however large the number.
        let widened = loupe_widened(setup).value();
        let out_len = match widened {
            Ok(_) | Err(Refusal::OutOfRange) => wanted.samples_in(self.planes.min(PLANES)),
            Err(_) => 0,
        };
        let mut first = widened.map(planes).unwrap_or_default();
        let mut second = vec![0.0; first.len()];
        let grey = LoupeSetup {
            planes: GREY_PLANES,
            ..setup
        };
        let place = loupe_widened(grey).value();
        let mut sigmas = vec![0.0; place.map_or(0, |r| self.block_count(r))];
        let mut out = vec![0.0; out_len];
        let (table, grids) = (self.table, self.grids);
        accepted(loupe_smooth(
            setup, self.frame, table, grids, &mut first, &mut second, &mut sigmas, &mut out,
        ))?;
        Ok(out)
    }

    fn block_count(&self, r: Region) -> usize {
        if self.settings.epf.iters == 0 {
            return 0;
        }
        let along = |side: u32| side.div_ceil(BLOCK) as usize;
        along(r.width) * along(r.height)
    }
}

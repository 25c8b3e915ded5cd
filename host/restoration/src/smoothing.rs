//! A run together with the buffers of its calls.

use crate::{
    BLOCK, Frame, MAX_AREA, Progress, Refusal, Region, Run, Setup, accepted, advance, band, result,
    start,
};

/// A run that owns its record, both sets of planes and the block sigmas.
///
/// ```
/// # use restoration::{Frame, Region, Setup, Smoothing};
/// // Specification 14.10: two bands; band 0 twice, and advance with band 1 missing.
/// let setup = Setup { band_height: 1, ..Setup::whole(Region::with_size(2, 2)) };
/// let planes = (0..12u8).map(f32::from).collect();
/// let mut smoothing = Smoothing::start(setup, Frame::with_size(2, 2), &[0; 3], &[], planes)?;
/// let whole = smoothing.clone().finish()?;
/// smoothing.band(0)?;
/// assert_eq!(smoothing.run().done[..2], [1, 0]);
/// assert_eq!(smoothing.run().bands_left, 1);
/// assert_eq!(smoothing.band(0), Err(restoration::Refusal::BandNotOpen));
/// assert_eq!(smoothing.advance(), Err(restoration::Refusal::PassNotDone));
/// // What is left.
/// assert_eq!(smoothing.finish()?, whole);
/// # Ok::<(), restoration::Refusal>(())
/// ```
#[derive(Debug, Clone)]
pub struct Smoothing {
    run: Run,
    sigmas: Vec<f32>,
    first: Vec<f32>,
    second: Vec<f32>,
}

impl Smoothing {
    /// Takes the planes of the image region, one after another. `table` and `grids` are those of
    /// [`crate::block_sigmas`].
    pub fn start(
        setup: Setup,
        frame: Frame,
        table: &[u32],
        grids: &[f32],
        mut planes: Vec<f32>,
    ) -> Result<Self, Refusal> {
        let second = vec![0.0; planes.len()];
        let mut sigmas = vec![0.0; block_count(&setup)];
        let answer = start(
            setup, frame, table, grids, &mut planes, &second, &mut sigmas,
        );
        Ok(Self {
            run: answer.value()?,
            sigmas,
            first: planes,
            second,
        })
    }

    /// The setup, how many passes are finished, and how many bands of this pass are left and which are
    /// done.
    pub fn run(&self) -> &Run {
        &self.run
    }

    /// How far the run is.
    ///
    /// ```
    /// # use restoration::{Frame, Progress, Region, Settings, Setup, Smoothing};
    /// // Three passes of four bands: the last one has a single row.
    /// let setup = Setup { band_height: 3, ..Setup::whole(Region::with_size(2, 10)) };
    /// let (frame, planes) = (Frame::with_size(2, 10), vec![0.5; 3 * 2 * 10]);
    /// let mut smoothing = Smoothing::start(setup, frame, &[0; 3], &[], planes.clone())?;
    /// let started = Progress { passes_over: 0, passes: 3, bands_left: 4, bands: 4 };
    /// assert_eq!(smoothing.progress(), started);
    /// for k in [3, 0] {
    ///     smoothing.band(k)?;
    /// }
    /// assert_eq!(smoothing.progress(), Progress { bands_left: 2, ..started });
    /// assert_eq!(smoothing.progress().bands_over(), 2);
    /// // Without passes a run is finished at once.
    /// let setup = Setup { settings: Settings::OFF, ..setup };
    /// let copied = Smoothing::start(setup, frame, &[0; 3], &[], planes)?.progress();
    /// assert_eq!(copied, Progress { passes: 0, bands_left: 0, ..started });
    /// assert!(copied.finished());
    /// # Ok::<(), restoration::Refusal>(())
    /// ```
    pub fn progress(&self) -> Progress {
        let setup = &self.run.setup;
        let settings = &setup.settings;
        Progress {
            passes_over: self.run.pass,
            passes: settings.gabor.enabled + settings.epf.iters,
            bands_left: self.run.bands_left,
            bands: result_region(setup).height.div_ceil(setup.band_height),
        }
    }

    pub fn band(&mut self, k: u32) -> Result<(), Refusal> {
        let answer = band(self.run, &self.sigmas, &mut self.first, &mut self.second, k);
        self.run = answer.value()?;
        Ok(())
    }

    pub fn advance(&mut self) -> Result<(), Refusal> {
        self.run = advance(self.run).value()?;
        Ok(())
    }

    /// The planes of a finished run, one after another: those of the image region or of the filter
    /// region.
    pub fn result(&self) -> Result<Vec<f32>, Refusal> {
        let setup = &self.run.setup;
        let mut out = vec![0.0; result_region(setup).samples_in(setup.planes)];
        accepted(result(self.run, &self.first, &self.second, &mut out))?;
        Ok(out)
    }

    /// Runs all bands and passes that are left and answers the result.
    pub fn finish(self) -> Result<Vec<f32>, Refusal> {
        self.finish_with(|_| {})
    }

    /// Runs all bands and passes that are left, tells `watch` after each band and each advance how far the
    /// run is (never if it is finished already), and answers the result. The library says when no pass is
    /// left: with no band left it refuses an advance, with 11, only if the run is finished.
    ///
    /// ```
    /// # use restoration::{Frame, Region, Setup, Smoothing};
    /// // Three passes of two bands, one of which is done already.
    /// let setup = Setup { band_height: 1, ..Setup::whole(Region::with_size(2, 2)) };
    /// let planes = (0..12u8).map(f32::from).collect();
    /// let mut smoothing = Smoothing::start(setup, Frame::with_size(2, 2), &[0; 3], &[], planes)?;
    /// smoothing.band(1)?;
    /// let mut percent = Vec::new();
    /// let watched = smoothing.clone().finish_with(|progress| {
    ///     percent.push(100 * progress.bands_over() / progress.bands_in_all());
    /// })?;
    /// // Band 0, an advance, and twice two bands and an advance.
    /// assert_eq!(percent, [33, 33, 50, 66, 66, 83, 100, 100]);
    /// assert_eq!(watched, smoothing.finish()?);
    /// # Ok::<(), restoration::Refusal>(())
    /// ```
    pub fn finish_with(mut self, mut watch: impl FnMut(Progress)) -> Result<Vec<f32>, Refusal> {
        loop {
            self.finish_bands(&mut watch)?;
            match self.advance() {
                Err(Refusal::PassNotDone) => return self.result(),
                advanced => advanced?,
            }
            watch(self.progress());
        }
    }

    /// Runs the bands of this pass that are left, whichever they are: as many as the record says, of
    /// those that it does not mark done.
    fn finish_bands(&mut self, watch: &mut impl FnMut(Progress)) -> Result<(), Refusal> {
        let Run {
            bands_left, done, ..
        } = self.run;
        let open = (0..).zip(done).filter(|&(_, flag)| flag == 0);
        for (k, _) in open.take(bands_left as usize) {
            self.band(k)?;
            watch(self.progress());
        }
        Ok(())
    }
}

fn result_region(setup: &Setup) -> Region {
    if setup.preserve_outside == 1 {
        setup.image
    } else {
        setup.filter
    }
}

/// Blocks of the filter region; 0 with the edge filter off. A region within the limits has at most as
/// many blocks as the largest area has samples; others are refused, so the count stops there.
fn block_count(setup: &Setup) -> usize {
    if setup.settings.epf.iters == 0 {
        return 0;
    }
    let along = |side: u32| side.div_ceil(BLOCK) as usize;
    let blocks = along(setup.filter.width) * along(setup.filter.height);
    blocks.min(MAX_AREA as usize)
}

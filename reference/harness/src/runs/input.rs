//! Inputs of the calls of a run and what they leave, for the library, the rules and the original.

use core::fmt;

use restoration::{
    CHANNELS, EpfSettings, EpfSigma, GREY_PLANES, GaborSettings, PLANES, Run, RunAnswer, Settings,
    Setup,
};

use crate::{
    bits,
    convert::{edge, frame, original, wide, wide_frame},
    expected::{self, runs as rule},
    gabor::one_row::expected_run,
    grey::definition,
    originals, picture, sigma,
};

/// The inputs of start.
#[derive(Clone)]
pub struct Input {
    pub setup: Setup,
    pub frame: oracle::Frame,
    pub table: Vec<u32>,
    pub grids: Vec<f32>,
    pub first: Vec<f32>,
    pub second: Vec<f32>,
    pub sigmas: Vec<f32>,
}

impl fmt::Debug for Input {
    fn fmt(&self, f: &mut fmt::Formatter) -> fmt::Result {
        f.debug_struct("Input")
            .field("setup", &self.setup)
            .field("frame", &self.frame)
            .field("table", &self.table)
            .field("grids", &self.grids.len())
            .field("sets", &[self.first.len(), self.second.len()])
            .field("sigmas", &self.sigmas.len())
            .finish()
    }
}

impl Input {
    pub fn rule(&self) -> rule::Start<'_> {
        rule::Start {
            setup: setup_rule(&self.setup),
            frame: wide_frame(self.frame),
            table: &self.table,
            grids: self.grids.len(),
            sets: [self.first.len(), self.second.len()],
            sigmas: self.sigmas.len(),
        }
    }

    /// Calls start with these inputs.
    pub fn start(&mut self) -> RunAnswer {
        restoration::start(
            self.setup,
            frame(self.frame),
            &self.table,
            &self.grids,
            &mut self.first,
            &self.second,
            &mut self.sigmas,
        )
    }

    /// The block sigmas after an accepted start.
    pub fn expected_sigmas(&self) -> Vec<f32> {
        if self.setup.settings.epf.iters == 0 {
            return Vec::new();
        }
        let modular = self.setup.settings.epf.sigma_for_modular;
        let input = self.rule();
        expected::sigma::sigmas(input.sigmas_of(), &self.grids, modular)
    }

    /// Whether the edge filter is on and its groups are mixed; of a picture that start accepts.
    pub fn is_mixed(&self) -> bool {
        let grids = sigma::original_grids(&self.table, &self.grids);
        let filter = original(self.setup.filter);
        self.setup.settings.epf.iters > 0 && originals::is_mixed(filter, self.frame, &grids)
    }

    /// The result of a whole run by the original, on one row after the rule's Gabor-like pass; of a grey
    /// picture by the definition. A run without passes is not compared with it: its result is a part of the
    /// first set.
    pub fn original(&self) -> Vec<f32> {
        if setup_rule(&self.setup).passes() == 0 {
            return result_part(&self.setup, &self.first);
        }
        if self.setup.planes != PLANES {
            return self.defined();
        }
        self.original_run()().concat()
    }

    /// The result of a whole run by the definition, with the block sigmas of the rule.
    pub fn defined(&self) -> Vec<f32> {
        let sigmas = self.expected_sigmas();
        definition::run(&self.setup, &place(&self.setup), &sigmas, &self.first)
    }

    /// A picture of three planes with all of them or the first one alone.
    pub fn of_planes(self, planes: u32) -> Self {
        if planes == GREY_PLANES {
            self.into_grey()
        } else {
            self
        }
    }

    /// The picture of the first plane alone.
    pub fn into_grey(mut self) -> Self {
        self.setup.planes = GREY_PLANES;
        let plane = self.first.len() / CHANNELS;
        self.first.truncate(plane);
        self.second.truncate(plane);
        self
    }

    /// A whole run by the original, on one row after the rule's Gabor-like pass, on its own copies of planes
    /// and grids.
    pub fn original_run(&self) -> impl FnOnce() -> oracle::Planes + use<> {
        let Settings { gabor, epf, .. } = self.setup.settings;
        let weights = (gabor.enabled == 1).then_some(gabor.weights);
        let edge = (epf.iters > 0).then(|| edge(epf));
        let grids = sigma::original_grids(&self.table, &self.grids);
        let (place, frame) = (place(&self.setup), self.frame);
        let planes = picture::planes(&self.first);
        move || {
            let edge = edge.map(|edge| (edge, frame, &grids[..]));
            expected_run(place, weights, edge, planes)
        }
    }
}

/// The record and the buffers between calls.
#[derive(Clone)]
pub struct State {
    pub run: Run,
    pub sigmas: Vec<f32>,
    pub first: Vec<f32>,
    pub second: Vec<f32>,
}

impl fmt::Debug for State {
    fn fmt(&self, f: &mut fmt::Formatter) -> fmt::Result {
        f.debug_struct("State")
            .field("run", &self.run)
            .field("sets", &self.sets())
            .field("sigmas", &self.sigmas.len())
            .finish()
    }
}

impl State {
    /// The state after an accepted start.
    pub fn new(run: Run, input: &Input) -> Self {
        Self {
            run,
            sigmas: input.sigmas.clone(),
            first: input.first.clone(),
            second: input.second.clone(),
        }
    }

    /// The record and every buffer have the same bits.
    pub fn same_bits(&self, other: &Self) -> bool {
        fields(&self.run) == fields(&other.run)
            && bits::same(&self.sigmas, &other.sigmas)
            && bits::same(&self.first, &other.first)
            && bits::same(&self.second, &other.second)
    }

    pub fn sets(&self) -> [usize; 2] {
        [self.first.len(), self.second.len()]
    }

    /// The set that the next pass reads, and the set that it writes.
    pub fn read_and_written(&mut self) -> [&mut Vec<f32>; 2] {
        if self.run.pass.is_multiple_of(2) {
            [&mut self.first, &mut self.second]
        } else {
            [&mut self.second, &mut self.first]
        }
    }
}

pub fn setup_rule(s: &Setup) -> rule::Setup {
    rule::Setup {
        image: wide(original(s.image)),
        filter: wide(original(s.filter)),
        planes: s.planes,
        preserve_outside: s.preserve_outside,
        gabor: s.settings.gabor.enabled,
        iterations: s.settings.epf.iters.into(),
        band_height: s.band_height.into(),
    }
}

pub fn record_rule(run: &Run) -> rule::Record<'_> {
    rule::Record {
        setup: setup_rule(&run.setup),
        pass: run.pass.into(),
        bands_left: run.bands_left.into(),
        done: &run.done,
    }
}

/// The record with the number of bands left that its pass and flags give. Its setup must be in range.
pub fn counted(run: Run) -> Run {
    Run {
        bands_left: record_rule(&run).left() as u32,
        ..run
    }
}

pub fn place(s: &Setup) -> oracle::Place {
    oracle::Place {
        image: original(s.image),
        filter: original(s.filter),
        preserve_outside: s.preserve_outside == 1,
    }
}

/// The samples of the result in a set, one plane after another.
pub fn result_part(s: &Setup, set: &[f32]) -> Vec<f32> {
    let place = place(s);
    let part = picture::result(&place);
    picture::runs(s.planes, place.image, part, (0, part.height))
        .flat_map(|run| set[run].iter().copied())
        .collect()
}

/// Every field of a record, floats by their bits. The patterns name all fields, so that a new one is
/// not forgotten.
pub fn fields(run: &Run) -> Vec<u32> {
    let &Run {
        setup,
        pass,
        bands_left,
        done,
    } = run;
    let mut all = setup_fields(&setup);
    all.extend([pass, bands_left]);
    all.extend(done.map(u32::from));
    all
}

fn setup_fields(setup: &Setup) -> Vec<u32> {
    let &Setup {
        image,
        filter,
        planes,
        preserve_outside,
        settings,
        band_height,
    } = setup;
    let mut all = settings_fields(settings);
    for r in [image, filter] {
        all.extend([r.left as u32, r.top as u32, r.width, r.height]);
    }
    all.extend([planes, preserve_outside, band_height]);
    all
}

fn settings_fields(mut settings: Settings) -> Vec<u32> {
    let numbers = [settings.gabor.enabled, settings.epf.iters];
    let bits = floats(&mut settings).into_iter().map(|f| f.to_bits());
    numbers.into_iter().chain(bits).collect()
}

/// All floats of the settings. The patterns name all fields, so that a new one is not forgotten.
pub fn floats(settings: &mut Settings) -> Vec<&mut f32> {
    let Settings { gabor, epf } = settings;
    let GaborSettings {
        enabled: _,
        weights,
    } = gabor;
    let EpfSettings {
        iters: _,
        channel_scale,
        sigma,
        sigma_for_modular,
    } = epf;
    let EpfSigma {
        quant_mul,
        pass0_sigma_scale,
        pass2_sigma_scale,
        border_sad_mul,
    } = sigma;
    let single = [
        quant_mul,
        pass0_sigma_scale,
        pass2_sigma_scale,
        border_sad_mul,
        sigma_for_modular,
    ];
    let many = weights.as_flattened_mut().iter_mut().chain(channel_scale);
    many.chain(single).collect()
}

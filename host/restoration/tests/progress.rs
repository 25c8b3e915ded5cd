//! How far a run is, from any place in it to its end: bands are done in any order, and what is told by
//! `finish_with` is compared with a list that is made by a rule.

#[path = "common/splitmix.rs"]
mod splitmix;

use core::iter::successors;

use restoration::{
    EpfSettings, Frame, GREY_PLANES, GaborSettings, MAX_BANDS, MAX_ITERS, PLANES, Progress, Region,
    Settings, Setup, Smoothing,
};
use splitmix::Random;

/// Runs of each number of planes, passes and bands.
const RUNS: usize = 12;

/// Up to three iterations, and the Gabor-like filter as the fourth pass.
fn settings(passes: u32) -> Settings {
    let iters = passes.min(MAX_ITERS);
    let gabor = GaborSettings {
        enabled: passes - iters,
        ..GaborSettings::DEFAULT
    };
    let epf = EpfSettings {
        iters,
        ..EpfSettings::DEFAULT
    };
    Settings { gabor, epf }
}

/// A run over bands of two rows, the last of them of one. The image has eight rows more, above the filter
/// region and in no band.
fn started(planes: u32, passes: u32, bands: u32) -> Smoothing {
    let (width, height) = (3, 2 * bands - 1);
    let setup = Setup {
        image: Region::with_size(width, 8 + height),
        filter: Region {
            top: 8,
            ..Region::with_size(width, height)
        },
        planes,
        preserve_outside: 0,
        settings: settings(passes),
        band_height: 2,
    };
    let samples = 0..setup.image.samples_in(planes);
    let samples = samples.map(|n| (n % 7) as f32 / 64.0).collect();
    let frame = Frame::with_size(width, 8 + height);
    Smoothing::start(setup, frame, &[0; 3], &[], samples).unwrap()
}

/// Any number of calls, some of which are refused.
fn some_calls(smoothing: &mut Smoothing, random: &mut Random) {
    let bands = u64::from(smoothing.progress().bands);
    while !random.once_in(2 * bands) {
        let k = random.next() % bands;
        let _ = smoothing.band(k as u32);
        let _ = smoothing.advance();
    }
}

/// Counted flag by flag.
fn counted(smoothing: &Smoothing) -> u32 {
    let Progress {
        passes_over,
        passes,
        bands,
        ..
    } = smoothing.progress();
    if passes_over == passes {
        return 0;
    }
    let flags = &smoothing.run().done[..bands as usize];
    flags.iter().filter(|&&flag| flag == 0).count() as u32
}

/// What is told next, after a band or an advance.
fn next(at: &Progress) -> Option<Progress> {
    if at.passes_over == at.passes {
        return None;
    }
    if at.bands_left > 0 {
        let bands_left = at.bands_left - 1;
        return Some(Progress { bands_left, ..*at });
    }
    let passes_over = at.passes_over + 1;
    let last = passes_over == at.passes;
    Some(Progress {
        passes_over,
        bands_left: if last { 0 } else { at.bands },
        ..*at
    })
}

fn compare(planes: u32, passes: u32, bands: u32, random: &mut Random) {
    let mut smoothing = started(planes, passes, bands);
    let whole = smoothing.clone().finish().unwrap();
    some_calls(&mut smoothing, random);
    let at = smoothing.progress();
    assert_eq!((at.passes, at.bands), (passes, bands));
    assert_eq!(at.bands_left, counted(&smoothing));
    let expected: Vec<Progress> = successors(next(&at), next).collect();
    let mut told = Vec::new();
    let result = smoothing.finish_with(|progress| told.push(progress));
    assert_eq!(told, expected);
    assert!(result.unwrap() == whole);
    let end = told.last().unwrap_or(&at);
    assert!(end.finished());
    assert_eq!(end.bands_over(), passes * bands);
}

#[test]
fn any_passes_and_bands() {
    let mut random = Random::new(0);
    let bands = [1, 2, 3, 9, MAX_BANDS as u32];
    let cases = (0..=1 + MAX_ITERS).flat_map(|passes| bands.map(|bands| (passes, bands)));
    for (passes, bands) in cases.flat_map(|case| [case; RUNS]) {
        for planes in [PLANES, GREY_PLANES] {
            compare(planes, passes, bands, &mut random);
        }
    }
}

/// One more after each band, and the same after an advance.
#[test]
fn bands_over_count_up() {
    let smoothing = started(PLANES, 3, 5);
    let mut over = Vec::new();
    smoothing
        .finish_with(|progress| over.push(progress.bands_over()))
        .unwrap();
    let pass = |n: u32| (5 * n + 1..=5 * n + 5).chain([5 * n + 5]);
    let expected: Vec<u32> = (0..3).flat_map(pass).collect();
    assert_eq!(over, expected);
}

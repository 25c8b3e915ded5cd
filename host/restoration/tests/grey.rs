//! Pictures of one plane: small runs by hand, runs beside those of three planes, and what another number of planes is
//! refused with (Specification 9.4, 12.6, 12.9 to 12.11). Rectangles of such pictures: `loupe`, `loupe_numbers.rs`.

#[path = "common/splitmix.rs"]
mod splitmix;

use restoration::{
    EpfSettings, EpfSigma, EpfStep, Frame, GREY_PLANES, GaborSettings, Loupe, PLANES, Refusal,
    Region, Run, Settings, Setup, Smoothing, advance, band, epf_pass, gabor_pass, result, start,
};
use splitmix::Random;

/// Pictures of each comparison.
const PICTURES: usize = 300;
/// Sides of pictures.
const SIDE: u64 = 40;
const NAN: f32 = f32::NAN;
/// Samples that are not finite, zeros and subnormals.
const SPECIAL: [f32; 8] = [
    0.0,
    -0.0,
    1.0e-45,
    -1.0e-39,
    f32::MAX,
    f32::INFINITY,
    f32::NEG_INFINITY,
    NAN,
];
const WRONG_PLANES: [u32; 5] = [0, 2, 4, 1 << 31, u32::MAX];

/// Between -1 and 1.
fn plain(random: &mut Random) -> f32 {
    (random.next() >> 40) as f32 / (1 << 23) as f32 - 1.0
}

/// A grey picture of one group, which has a grid.
struct Picture {
    region: Region,
    settings: Settings,
    grids: Vec<f32>,
    plane: Vec<f32>,
}

impl Picture {
    /// Samples that differ little, so that each pass changes them; one picture in four has special ones.
    fn new(enabled: u32, iters: u32, random: &mut Random) -> Self {
        let mut side = || 1 + (random.next() % SIDE) as u32;
        let region = Region::with_size(side(), side());
        let special = random.once_in(4);
        let mut sample = || {
            if special && random.once_in(16) {
                return SPECIAL[random.next() as usize % SPECIAL.len()];
            }
            0.5 + 0.05 * plain(random)
        };
        let plane = (0..region.area()).map(|_| sample()).collect();
        let mut settings = Settings::DEFAULT;
        let weights = [(); 3].map(|()| [plain(random) / 8.0, plain(random) / 16.0]);
        settings.gabor = GaborSettings { enabled, weights };
        settings.epf.iters = iters;
        settings.epf.channel_scale = [(); 3].map(|()| 20.0 * plain(random).abs());
        let blocks = region.width.div_ceil(8) * region.height.div_ceil(8);
        Self {
            region,
            settings,
            grids: (0..blocks).map(|_| 4.0 * plain(random).abs()).collect(),
            plane,
        }
    }

    /// A whole run over planes like those of this picture, in bands of five rows.
    fn run(&self, settings: Settings, samples: Vec<f32>) -> Vec<f32> {
        let Region { width, height, .. } = self.region;
        let setup = Setup {
            planes: (samples.len() / self.plane.len()) as u32,
            settings,
            band_height: 5,
            ..Setup::whole(self.region)
        };
        let table = [1, width.div_ceil(8), height.div_ceil(8)];
        let frame = Frame::with_size(width, height);
        let run = Smoothing::start(setup, frame, &table, &self.grids, samples);
        run.and_then(Smoothing::finish).expect("an accepted run")
    }

    fn smoothed(&self) -> Vec<f32> {
        self.run(self.settings, self.plane.clone())
    }

    /// The same with this float in all weights and scales of the other channels.
    fn smoothed_beside(&self, unread: f32) -> Vec<f32> {
        let mut settings = self.settings;
        settings.gabor.weights[1..].fill([unread; 2]);
        settings.epf.channel_scale[1..].fill(unread);
        self.run(settings, self.plane.clone())
    }
}

/// The same bits, or two NaNs.
fn same(a: &[f32], b: &[f32]) -> bool {
    let agree = |(a, b): (&f32, &f32)| a.to_bits() == b.to_bits() || a.is_nan() && b.is_nan();
    a.len() == b.len() && a.iter().zip(b).all(agree)
}

/// A whole run over one plane of three columns and rows. The other channels' weights and scales are NaN.
fn of_three_rows(enabled: u32, epf: EpfSettings, plane: [f32; 9]) -> Vec<f32> {
    let gabor = GaborSettings {
        enabled,
        weights: [[0.5, 0.25], [NAN; 2], [NAN; 2]],
    };
    let setup = Setup {
        settings: Settings { gabor, epf },
        ..Setup::grey(Region::with_size(3, 3))
    };
    let frame = Frame::with_size(3, 3);
    let run = Smoothing::start(setup, frame, &[0; 3], &[], plane.to_vec());
    run.and_then(Smoothing::finish).expect("an accepted run")
}

fn point(middle: f32) -> [f32; 9] {
    [0.0, 0.0, 0.0, 0.0, middle, 0.0, 0.0, 0.0, 0.0]
}

/// The sample in the middle spreads as in Specification 14.6. With a scale of 0 every distance is 0 and every weight of
/// step 1 is 1, so a sample becomes the mean of itself and its four neighbours (11.6 to 11.8); both together: the
/// sums of what the Gabor-like filter leaves, by five.
#[test]
fn small_runs_by_hand() {
    let off = Settings::OFF.epf;
    let spread = [1.0, 2.0, 1.0, 2.0, 4.0, 2.0, 1.0, 2.0, 1.0];
    assert_eq!(of_three_rows(1, off, point(16.0)), spread);
    let means = EpfSettings {
        iters: 1,
        channel_scale: [0.0, NAN, NAN],
        sigma: EpfSigma {
            border_sad_mul: 1.0,
            ..EpfSigma::DEFAULT
        },
        sigma_for_modular: 1.0,
    };
    let mean = [0.0, 8.0, 0.0, 8.0, 8.0, 8.0, 0.0, 8.0, 0.0];
    assert_eq!(of_three_rows(0, means, point(40.0)), mean);
    // 80 spreads to 5 10 5 / 10 20 10 / 5 10 5, mirrored at the edges.
    let both = [7.0, 10.0, 7.0, 10.0, 12.0, 10.0, 7.0, 10.0, 7.0];
    assert_eq!(of_three_rows(1, means, point(80.0)), both);
}

/// Specification 11.8: step 2 with sigma 1, M = 1 and scale 1 on a plane of one row 0, 1/2; and 14.8.
#[test]
fn a_step_by_hand() {
    let image = Region::with_size(2, 1);
    let step = EpfStep {
        step: 2,
        channel_scale: [1.0, NAN, NAN],
        multiplier: 1.0,
        border_sad_mul: 1.0,
    };
    for (sigma, expected) in [(1.0, [0x3B87_E264, 0x3EFD_E078]), (0.25, [0, 0x3F00_0000])] {
        let mut target = [-1.0; 2];
        let source = [0.0, 0.5];
        let number = epf_pass(
            image,
            image,
            1,
            1,
            step,
            &[sigma],
            0,
            1,
            &source,
            &mut target,
        );
        assert_eq!((number, target.map(f32::to_bits)), (0, expected));
    }
}

/// The middle row of Specification 14.6 by the loupe, whose decoder supplies one plane and is not asked if the number
/// of planes is wrong.
#[test]
fn a_rectangle_by_hand() {
    let gabor = GaborSettings::with_weights([[0.5, 0.25], [NAN; 2], [NAN; 2]]);
    let grey = Loupe {
        whole: Region::with_size(3, 3),
        planes: GREY_PLANES,
        settings: Settings {
            gabor,
            ..Settings::OFF
        },
        frame: Frame::with_size(3, 3),
        table: &[0; 3],
        grids: &[],
    };
    let middle = Region {
        top: 1,
        ..Region::with_size(3, 1)
    };
    let shown = grey.smooth(middle, |_| point(16.0).to_vec());
    assert_eq!(shown, Ok(vec![2.0, 4.0, 2.0]));
    let three = grey.smooth(middle, |_| [point(16.0); 3].concat());
    assert_eq!(three, Err(Refusal::WrongLength));
    for planes in WRONG_PLANES {
        let shown = Loupe { planes, ..grey }.smooth(middle, |_| unreachable!("not asked"));
        assert_eq!(shown, Err(Refusal::OutOfRange), "{planes}");
    }
}

/// A pass over some rows of an image around a filter region of one row: all else of the plane stays.
#[test]
fn rows_of_a_pass() {
    let image = Region::with_size(3, 4);
    let filter = Region {
        top: 2,
        ..Region::with_size(3, 1)
    };
    let gabor = GaborSettings::with_weights([[0.5, 0.25], [NAN; 2], [NAN; 2]]);
    let source = [1.0, 2.0, 3.0, 4.0, 5.0, 6.0, 0.0, 16.0, 0.0, 7.0, 8.0, 9.0];
    let mut target = [-1.0; 12];
    let number = gabor_pass(image, filter, 1, 1, gabor, 1, 3, &source, &mut target);
    let mut expected = [-1.0; 12];
    expected[3..9].copy_from_slice(&[4.0, 5.0, 6.0, 4.0, 8.0, 4.0]);
    assert_eq!((number, target), (0, expected));
}

/// The Gabor-like filter reads no other plane.
#[test]
fn a_gabor_run_is_the_first_plane_of_three() {
    let mut random = Random::new(1);
    for _ in 0..PICTURES {
        let picture = Picture::new(1, 0, &mut random);
        let mut three = picture.plane.clone();
        for _ in 0..2 * picture.plane.len() {
            three.push(f32::from_bits(random.next() as u32));
        }
        let three = picture.run(picture.settings, three);
        let grey = picture.smoothed();
        assert!(same(&grey, &three[..grey.len()]), "{:?}", picture.region);
        assert!(!same(&grey, &picture.plane) || picture.region.area() == 1);
    }
}

/// Planes of zeros have no part in a distance.
#[test]
fn a_step_run_is_the_first_plane_beside_planes_of_zeros() {
    let mut random = Random::new(2);
    let mut changed = 0;
    for iters in [1, 2, 3].repeat(PICTURES) {
        let picture = Picture::new(u32::from(random.once_in(2)), iters, &mut random);
        let mut three = picture.plane.clone();
        three.resize(3 * picture.plane.len(), 0.0);
        let mut settings = picture.settings;
        settings.epf.channel_scale[1..].fill(0.0);
        let three = picture.run(settings, three);
        let grey = picture.smoothed();
        assert!(same(&grey, &three[..grey.len()]), "{:?}", picture.region);
        changed += usize::from(!same(&grey, &picture.plane));
    }
    assert!(changed > 2 * PICTURES, "{changed} pictures are changed");
}

#[test]
fn weights_and_scales_of_other_channels_are_not_read() {
    let mut random = Random::new(3);
    for n in 0..PICTURES as u32 {
        let picture = Picture::new(n % 2, n / 2 % 4, &mut random);
        let grey = picture.smoothed();
        for unread in SPECIAL {
            assert!(same(&grey, &picture.smoothed_beside(unread)), "{unread}");
        }
    }
}

/// The arguments of a start, which is accepted as they are: both filters on, two blocks, a group without a grid.
#[derive(Clone)]
struct Start {
    setup: Setup,
    frame: Frame,
    table: Vec<u32>,
    grids: Vec<f32>,
    first: Vec<f32>,
    second: Vec<f32>,
    sigmas: Vec<f32>,
}

type Fault = fn(&mut Start);

impl Start {
    fn new() -> Self {
        Self {
            setup: Setup::grey(Region::with_size(9, 4)),
            frame: Frame::with_size(9, 4),
            table: vec![0; 3],
            grids: Vec::new(),
            first: vec![1.0; 36],
            second: vec![2.0; 36],
            sigmas: vec![3.0; 2],
        }
    }

    /// With these faults: the number of the start, which leaves the buffers if it is not 0.
    fn number(faults: &[Fault]) -> u32 {
        let mut given = Self::new();
        faults.iter().for_each(|fault| fault(&mut given));
        let was = given.clone();
        let answer = start(
            given.setup,
            given.frame,
            &given.table,
            &given.grids,
            &mut given.first,
            &given.second,
            &mut given.sigmas,
        );
        if answer.number > 0 {
            assert!(same(&given.first, &was.first) && same(&given.sigmas, &was.sigmas));
            assert_eq!((answer.run.setup.planes, answer.run.bands_left), (0, 0));
        }
        answer.number
    }
}

/// What is wrong beside the number of planes, and the number that is given: sets of any length are passed over, and
/// nothing else.
const FAULTS: [(u32, Fault); 17] = [
    (9, |_| {}),
    (9, |s| s.first.clear()),
    (9, |s| s.second.resize(3 * 36, 0.0)),
    (4, |s| s.setup.image.width = 16_385),
    (4, |s| s.setup.filter.height = 0),
    (4, |s| s.frame.height = 0),
    (4, |s| s.table = vec![1, 1_025, 1]),
    (5, |s| s.setup.filter.width = 10),
    (6, |s| {
        (s.setup.image.left, s.setup.filter.left) = (4, 4);
    }),
    (7, |s| s.table.push(0)),
    (7, |s| s.grids.push(1.0)),
    (7, |s| s.sigmas.push(1.0)),
    (8, |s| {
        (s.table, s.grids) = (vec![1, 1, 1], vec![1.0]);
    }),
    (9, |s| s.setup.settings.epf.iters = 4),
    (9, |s| s.setup.settings.gabor.enabled = 2),
    (9, |s| s.setup.preserve_outside = 2),
    (9, |s| s.setup.band_height = 0),
];

#[test]
fn a_start_with_another_number_of_planes() {
    assert_eq!(Start::number(&[]), 0);
    assert_eq!(Start::number(&[|s| s.first.clear()]), 7);
    assert_eq!(Start::number(&[|s| s.second.resize(3 * 36, 0.0)]), 7);
    assert_eq!(Start::number(&[|s| s.setup.planes = PLANES]), 7);
    const WRONG: [Fault; 4] = [
        |s| s.setup.planes = 0,
        |s| s.setup.planes = 2,
        |s| s.setup.planes = 4,
        |s| s.setup.planes = u32::MAX,
    ];
    for planes in WRONG {
        for (n, (number, fault)) in FAULTS.into_iter().enumerate() {
            assert_eq!(Start::number(&[planes, fault]), number, "fault {n}");
        }
    }
}

/// `Smoothing` makes the other buffers as long as they have to be, so that 9 is the only refusal.
#[test]
fn smoothing_with_another_number_of_planes() {
    let region = Region::with_size(20, 20);
    for planes in WRONG_PLANES {
        let setup = Setup {
            planes,
            ..Setup::whole(region)
        };
        for samples in [0, 1, 400, 800, 1_200, 1_600] {
            let frame = Frame::with_size(20, 20);
            let run = Smoothing::start(setup, frame, &[0; 3], &[], vec![0.0; samples]);
            assert_eq!(run.err(), Some(Refusal::OutOfRange), "{planes}, {samples}");
        }
    }
}

/// A record with another number of planes is not valid. The lengths of the sets and of the slice for the result are
/// passed over, that of the block sigmas is not.
#[test]
fn a_record_with_another_number_of_planes() {
    let setup = Setup::grey(Region::with_size(9, 4));
    let valid = Run {
        setup,
        bands_left: 1,
        ..Run::DEFAULT
    };
    for planes in WRONG_PLANES {
        let run = Run {
            setup: Setup { planes, ..setup },
            ..valid
        };
        for samples in [0, 36, 72, 108] {
            let (mut first, mut second) = (vec![1.0; samples], vec![2.0; 36]);
            let answer = band(run, &[1.0; 2], &mut first, &mut second, 0);
            assert_eq!((answer.number, answer.run == run), (9, true));
            let answer = band(run, &[1.0; 3], &mut first, &mut second, 0);
            assert_eq!((answer.number, answer.run == run), (7, true));
            let mut out = vec![3.0; samples];
            assert_eq!(result(run, &first, &second, &mut out), 9);
            assert!(first.iter().all(|x| *x == 1.0) && second.iter().all(|x| *x == 2.0));
            assert!(out.iter().all(|x| *x == 3.0));
        }
        let answer = advance(run);
        assert_eq!((answer.number, answer.run == run), (9, true));
    }
    assert_eq!(advance(valid).number, 11);
    let (mut first, mut second) = ([1.0; 36], [2.0; 36]);
    let done = band(valid, &[1.0; 2], &mut first, &mut second, 0);
    assert_eq!((done.number, done.run.bands_left), (0, 0));
}

/// The lengths of both sets are passed over, that of the sigmas is not.
#[test]
fn passes_with_another_number_of_planes() {
    let image = Region::with_size(2, 2);
    let (gabor, step) = (GaborSettings::DEFAULT, EpfStep::DEFAULT);
    let wrong = EpfStep { step: 3, ..step };
    for (planes, samples) in WRONG_PLANES
        .map(|planes| [0, 4, 8, 12].map(|n| (planes, n)))
        .as_flattened()
    {
        let (src, mut dst) = (vec![1.0; *samples], [2.0; 4]);
        let dst = &mut dst;
        assert_eq!(
            gabor_pass(image, image, *planes, 1, gabor, 0, 2, &src, dst),
            9
        );
        assert_eq!(
            gabor_pass(image, image, *planes, 1, gabor, 2, 1, &src, dst),
            9
        );
        for (number, step, sigmas) in [(9, step, &[1.0][..]), (9, wrong, &[1.0]), (7, step, &[])] {
            let given = epf_pass(image, image, *planes, 1, step, sigmas, 0, 2, &src, dst);
            assert_eq!(given, number);
        }
        assert_eq!(*dst, [2.0; 4]);
    }
    for planes in [GREY_PLANES, PLANES] {
        let (src, dst) = (vec![1.0; 4 * planes as usize], &mut vec![2.0; 8]);
        assert_eq!(
            gabor_pass(image, image, planes, 1, gabor, 0, 2, &src, dst),
            7
        );
        assert_eq!(
            epf_pass(image, image, planes, 1, step, &[1.0], 0, 2, &src, dst),
            7
        );
    }
}

//! The numbers that `Loupe::smooth` gives are those of `loupe_smooth`, in the order of Specification 17.5, also
//! where several arguments are wrong and no planes are requested.

use restoration::{
    Frame, GREY_PLANES, Loupe, LoupeSetup, PLANES, Refusal, Region, Settings, loupe_widened,
};

const WHOLE: Region = Region::with_size(64, 48);
const WANTED: Region = Region {
    left: 20,
    top: 10,
    width: 4,
    height: 3,
};

/// The arguments of `Loupe`, which are accepted as they are: both filters on, one group without a grid.
#[derive(Clone, Copy)]
struct Case {
    loupe: Loupe<'static>,
    wanted: Region,
    /// How many samples the supplied planes lack.
    missing: usize,
}

const VALID: Case = Case {
    loupe: Loupe {
        whole: WHOLE,
        planes: PLANES,
        settings: Settings::DEFAULT,
        frame: Frame::with_size(64, 48),
        table: &[0, 0, 0],
        grids: &[],
    },
    wanted: WANTED,
    missing: 0,
};

/// Something wrong with the arguments.
type Fault = fn(&mut Case);

const WHOLE_TOO_WIDE: Fault = |case| case.loupe.whole.width = 16_385;
const WHOLE_LARGEST: Fault = |case| case.loupe.whole = Region::with_size(4_096, 4_096);
const WANTED_TOO_LARGE: Fault = |case| {
    (case.wanted.width, case.wanted.height) = (u32::MAX, u32::MAX);
};
const WANTED_ALL: Fault = |case| case.wanted = case.loupe.whole;
const WANTED_OUTSIDE: Fault = |case| case.wanted.left = 70;
const WANTED_EMPTY: Fault = |case| case.wanted.height = 0;
const OFF_BLOCKS: Fault = |case| case.loupe.whole.left = 4;
const NO_FRAME: Fault = |case| case.loupe.frame.width = 0;
const UPSAMPLING: Fault = |case| case.loupe.frame.upsampling = 3;
const GRID_TOO_WIDE: Fault = |case| case.loupe.table = &[1, 1_025, 1];
const TABLE_TOO_LONG: Fault = |case| case.loupe.table = &[0; 4];
const PRESENCE: Fault = |case| case.loupe.table = &[2, 1, 1];
const GRIDS_TOO_LONG: Fault = |case| case.loupe.grids = &[1.0];
const BLOCK_NOT_HELD: Fault = |case| {
    (case.loupe.table, case.loupe.grids) = (&[1, 1, 1], &[1.0]);
};
const PLANES_TOO_SHORT: Fault = |case| case.missing = 1;
const ITERATIONS: Fault = |case| case.loupe.settings.epf.iters = 4;
const NO_EPF: Fault = |case| case.loupe.settings.epf.iters = 0;
const GABOR_FLAG: Fault = |case| case.loupe.settings.gabor.enabled = 2;
const GREY: Fault = |case| case.loupe.planes = GREY_PLANES;
/// No number of planes is right but 1 and 3.
const WRONG_PLANES: [Fault; 4] = [
    |case| case.loupe.planes = 0,
    |case| case.loupe.planes = 2,
    |case| case.loupe.planes = 4,
    |case| case.loupe.planes = u32::MAX,
];

fn with(faults: &[Fault]) -> Case {
    let mut case = VALID;
    faults.iter().for_each(|fault| fault(&mut case));
    case
}

fn widened_number(faults: &[Fault]) -> u32 {
    let Case { loupe, wanted, .. } = with(faults);
    let setup = LoupeSetup {
        whole: loupe.whole,
        wanted,
        planes: loupe.planes,
        settings: loupe.settings,
    };
    loupe_widened(setup).number
}

/// How many samples `Loupe` returns, or the number of its refusal, and the rectangle whose planes it requested.
fn smoothed(faults: &[Fault]) -> (Result<usize, u32>, Option<Region>) {
    let case = with(faults);
    let mut requested = None;
    let samples = case.loupe.smooth(case.wanted, |r| {
        requested = Some(r);
        vec![0.5; r.samples_in(case.loupe.planes) - case.missing]
    });
    let answer = samples.map(|samples| samples.len());
    (answer.map_err(Refusal::number), requested)
}

#[test]
fn accepted() {
    let widened = Region {
        left: 16,
        top: 0,
        width: 12,
        height: 17,
    };
    assert_eq!(smoothed(&[]), (Ok(3 * 4 * 3), Some(widened)));
    assert_eq!(smoothed(&[GREY]), (Ok(4 * 3), Some(widened)));
}

/// `loupe_widened` accepts these, and the planes are requested.
#[test]
fn one_fault_after_the_planes() {
    for (number, fault) in [
        (4, NO_FRAME),
        (4, GRID_TOO_WIDE),
        (7, PLANES_TOO_SHORT),
        (7, TABLE_TOO_LONG),
        (7, GRIDS_TOO_LONG),
        (8, BLOCK_NOT_HELD),
        (9, UPSAMPLING),
        (9, PRESENCE),
    ] {
        for faults in [&[fault][..], &[GREY, fault]] {
            let (answer, requested) = smoothed(faults);
            assert_eq!((answer, requested.is_some()), (Err(number), true));
        }
    }
}

/// `loupe_widened` refuses these. No planes are requested, and for a region of 2^64 samples nothing is allocated.
#[test]
fn one_fault_before_the_planes() {
    for (number, fault) in [
        (4, WHOLE_TOO_WIDE),
        (4, WANTED_TOO_LARGE),
        (15, WANTED_OUTSIDE),
        (15, WANTED_EMPTY),
        (6, OFF_BLOCKS),
        (9, ITERATIONS),
        (9, GABOR_FLAG),
    ] {
        assert_eq!(smoothed(&[fault]), (Err(number), None));
        assert_eq!(smoothed(&[GREY, fault]), (Err(number), None));
    }
}

/// A wrong number of planes with each other fault. No planes are requested, so none are missing, and for the
/// largest number nothing is allocated. `loupe_widened`, whose number is the first of each row, makes fewer
/// checks.
#[test]
fn a_wrong_number_of_planes() {
    let cases: [(u32, u32, &[Fault]); 18] = [
        (9, 9, &[]),
        (4, 4, &[WHOLE_TOO_WIDE]),
        (4, 4, &[WANTED_TOO_LARGE]),
        (15, 15, &[WANTED_OUTSIDE]),
        (15, 15, &[WANTED_EMPTY]),
        (6, 6, &[OFF_BLOCKS]),
        (9, 4, &[NO_FRAME]),
        (9, 4, &[GRID_TOO_WIDE]),
        (9, 7, &[TABLE_TOO_LONG]),
        (9, 7, &[GRIDS_TOO_LONG]),
        (9, 8, &[BLOCK_NOT_HELD]),
        (9, 9, &[PLANES_TOO_SHORT]),
        (9, 9, &[UPSAMPLING]),
        (9, 9, &[PRESENCE]),
        (9, 9, &[ITERATIONS]),
        (9, 9, &[GABOR_FLAG]),
        (9, 9, &[NO_EPF]),
        // Each length but those of the planes and of `out` is compared.
        (9, 7, &[NO_EPF, GABOR_FLAG, GRIDS_TOO_LONG]),
    ];
    for planes in WRONG_PLANES {
        for (n, (by_widened, number, faults)) in cases.into_iter().enumerate() {
            let faults = [faults, &[planes]].concat();
            assert_eq!(widened_number(&faults), by_widened, "case {n}");
            assert_eq!(smoothed(&faults), (Err(number), None), "case {n}");
        }
    }
}

/// The first check of 17.5 that applies gives the number. `loupe_widened`, whose number is the first of each row,
/// makes fewer checks.
#[test]
fn several_faults() {
    let cases: [(u32, u32, &[Fault]); 18] = [
        (15, 4, &[WANTED_OUTSIDE, NO_FRAME]),
        (15, 4, &[WANTED_EMPTY, GRID_TOO_WIDE]),
        (6, 4, &[OFF_BLOCKS, NO_FRAME]),
        (9, 4, &[ITERATIONS, NO_FRAME]),
        (9, 4, &[GABOR_FLAG, GRID_TOO_WIDE]),
        (4, 4, &[WANTED_TOO_LARGE, ITERATIONS, TABLE_TOO_LONG]),
        (15, 15, &[WANTED_OUTSIDE, OFF_BLOCKS]),
        (15, 15, &[WANTED_OUTSIDE, ITERATIONS, TABLE_TOO_LONG]),
        (6, 6, &[OFF_BLOCKS, GABOR_FLAG]),
        (6, 6, &[OFF_BLOCKS, TABLE_TOO_LONG]),
        (9, 7, &[ITERATIONS, TABLE_TOO_LONG]),
        (9, 7, &[ITERATIONS, GRIDS_TOO_LONG]),
        (9, 7, &[NO_EPF, GABOR_FLAG, GRIDS_TOO_LONG]),
        // 6, the lengths of planes and sigmas, or 8 are passed over.
        (9, 9, &[OFF_BLOCKS, ITERATIONS]),
        (9, 9, &[GABOR_FLAG, BLOCK_NOT_HELD]),
        (9, 9, &[NO_EPF, GABOR_FLAG]),
        (9, 9, &[WHOLE_LARGEST, WANTED_ALL, GABOR_FLAG]),
        (9, 9, &[ITERATIONS, UPSAMPLING]),
    ];
    for (n, (by_widened, number, faults)) in cases.into_iter().enumerate() {
        for faults in [faults, &[&[GREY], faults].concat()] {
            assert_eq!(widened_number(faults), by_widened, "case {n}");
            assert_eq!(smoothed(faults), (Err(number), None), "case {n}");
        }
    }
    let (answer, _) = smoothed(&[PLANES_TOO_SHORT, BLOCK_NOT_HELD]);
    assert_eq!(answer, Err(7));
    let (answer, _) = smoothed(&[PLANES_TOO_SHORT, NO_FRAME]);
    assert_eq!(answer, Err(4));
}

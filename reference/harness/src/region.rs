//! Region arithmetic: inputs are left, top, width and height of each region, then the other parameters.

use restoration::{BoolAnswer, EdgeAnswer, RegionAnswer};

use crate::{
    expected::{self, Ruled},
    kinds::{ALIGNMENT, CORNER, FACTOR, Kind, MOVE, PADDING, SIDE},
    subject::{Answer, Subject},
};

const ONE: &[&Kind] = &[&CORNER, &CORNER, &SIDE, &SIDE];
const TWO: &[&Kind] = &[
    &CORNER, &CORNER, &SIDE, &SIDE, &CORNER, &CORNER, &SIDE, &SIDE,
];

pub const SUBJECTS: [Subject; 9] = [
    Subject {
        name: "is_empty",
        inputs: ONE,
        outputs: 1,
        numbers: &[0, 4],
        ours: |c| holds(restoration::region_is_empty(region(c))),
        rule: |c| ruled(expected::is_empty(wide(c)), |holds| [i128::from(holds)]),
        original: |c| Answer::new(0, &[i128::from(original(c).is_empty())]),
        near: &[("near zero", &[(-9, 9), (-9, 9), (0, 9), (0, 9)])],
        named: &[&[-3, 5, 0, 4], &[-3, 5, 4, 0], &[0, 0, 1, 1]],
    },
    Subject {
        name: "right",
        inputs: ONE,
        outputs: 1,
        numbers: &[0, 4],
        ours: |c| edge(restoration::region_right(region(c))),
        rule: |c| ruled(expected::right(wide(c)), |edge| [edge]),
        original: |c| Answer::new(0, &[original(c).right().into()]),
        near: &[("near zero", &[(-9, 9), (-9, 9), (0, 9), (0, 9)])],
        named: &[&[1_048_576, 0, 16_384, 1], &[-1_048_576, 0, 0, 0]],
    },
    Subject {
        name: "bottom",
        inputs: ONE,
        outputs: 1,
        numbers: &[0, 4],
        ours: |c| edge(restoration::region_bottom(region(c))),
        rule: |c| ruled(expected::bottom(wide(c)), |edge| [edge]),
        original: |c| Answer::new(0, &[original(c).bottom().into()]),
        near: &[("near zero", &[(-9, 9), (-9, 9), (0, 9), (0, 9)])],
        named: &[&[0, 1_048_576, 1, 16_384], &[0, -1_048_576, 0, 0]],
    },
    Subject {
        name: "contains",
        inputs: TWO,
        outputs: 1,
        numbers: &[0, 4],
        ours: |c| holds(restoration::region_contains(region(c), region(&c[4..]))),
        rule: |c| {
            ruled(expected::contains(wide(c), wide(&c[4..])), |holds| {
                [i128::from(holds)]
            })
        },
        original: |c| Answer::new(0, &[i128::from(original(c).contains(original(&c[4..])))]),
        near: &[("near zero", TWO_NEAR)],
        named: &[
            &[0, 0, 8, 8, 100, 100, 0, 5],
            &[0, 0, 8, 8, 0, 0, 8, 8],
            &[0, 0, 8, 8, 1, 0, 8, 8],
            &[-4, -4, 8, 8, -4, -4, 9, 8],
        ],
    },
    Subject {
        name: "translate",
        inputs: &[&CORNER, &CORNER, &SIDE, &SIDE, &MOVE, &MOVE],
        outputs: 4,
        numbers: &[0, 4],
        ours: |c| {
            let (x, y) = (c[4] as i32, c[5] as i32);
            whole(restoration::region_translate(region(c), x, y))
        },
        rule: |c| ruled(expected::translate(wide(c), c[4], c[5]), of_wide),
        original: |c| accepted(original(c).translate(c[4] as i32, c[5] as i32)),
        near: &[(
            "near zero",
            &[(-3, 3), (-3, 3), (0, 2), (0, 2), (-4, 4), (-4, 4)],
        )],
        named: &[
            &[-3, 4, 5, 6, 3, -4],
            &[1_048_575, 0, 1, 1, 1, 0],
            &[1_048_575, 0, 1, 1, 2, 0],
        ],
    },
    Subject {
        name: "intersection",
        inputs: TWO,
        outputs: 4,
        numbers: &[0, 4],
        ours: |c| {
            let (a, b) = (region(c), region(&c[4..]));
            whole(restoration::region_intersection(a, b))
        },
        rule: |c| ruled(expected::intersection(wide(c), wide(&c[4..])), of_wide),
        original: |c| accepted(original(c).intersection(original(&c[4..]))),
        near: &[("near zero", TWO_NEAR)],
        named: &[
            &[0, 0, 8, 8, 8, 0, 8, 8],
            &[0, 0, 8, 8, 7, -3, 8, 4],
            &[-5, -5, 20, 20, 0, 0, 3, 3],
        ],
    },
    Subject {
        name: "pad",
        inputs: &[&CORNER, &CORNER, &SIDE, &SIDE, &PADDING],
        outputs: 4,
        numbers: &[0, 4],
        ours: |c| whole(restoration::region_pad(region(c), c[4] as u32)),
        rule: |c| ruled(expected::pad(wide(c), c[4]), of_wide),
        original: |c| accepted(original(c).pad(c[4] as u32)),
        near: &[("near zero", &[(-5, 5), (-5, 5), (0, 5), (0, 5), (0, 9)])],
        named: &[
            &[-3, 2, 5, 6, 3],
            &[0, 0, 0, 0, 8_192],
            &[0, 0, 0, 1, 8_192],
            &[-1_048_575, 0, 1, 1, 2],
        ],
    },
    Subject {
        name: "downsample",
        inputs: &[&CORNER, &CORNER, &SIDE, &SIDE, &FACTOR],
        outputs: 4,
        numbers: &[0, 4, 9],
        ours: |c| whole(restoration::region_downsample(region(c), c[4] as u32)),
        rule: |c| ruled(expected::downsample(wide(c), c[4]), of_wide),
        original: |c| accepted(original(c).downsample(c[4] as u32)),
        near: &[
            ("columns", &[(-18, 18), (-3, 3), (0, 17), (0, 2), (0, 17)]),
            ("rows", &[(-3, 3), (-18, 18), (0, 2), (0, 17), (0, 17)]),
        ],
        named: &[
            &[-3, -3, 5, 5, 1],
            &[-1, 0, 0, 1, 3],
            &[-1_048_576, 1_048_576, 16_384, 16_384, 16],
            &[0, 0, 1, 1, 17],
            &[0, 0, 16_385, 1, 17],
        ],
    },
    Subject {
        name: "container_aligned",
        inputs: &[&CORNER, &CORNER, &SIDE, &SIDE, &ALIGNMENT],
        outputs: 4,
        numbers: &[0, 4, 9],
        ours: |c| {
            let dim = c[4] as u32;
            whole(restoration::region_container_aligned(region(c), dim))
        },
        rule: |c| ruled(expected::container_aligned(wide(c), c[4]), of_wide),
        original: |c| accepted(oracle::container_aligned(original(c), c[4] as u32)),
        near: &[
            ("columns", &[(-18, 18), (-3, 3), (0, 17), (0, 2), (0, 33)]),
            ("rows", &[(-3, 3), (-18, 18), (0, 2), (0, 17), (0, 33)]),
        ],
        named: &[
            &[-3, -3, 5, 5, 8],
            &[-3, 0, 0, 0, 8],
            &[1, 0, 16_384, 1, 8],
            &[0, 0, 1, 1, 3],
            &[0, 0, 1, 1, 16_384],
        ],
    },
];

const TWO_NEAR: &[(i128, i128)] = &[
    (-3, 3),
    (-2, 2),
    (0, 4),
    (0, 3),
    (-3, 3),
    (-2, 2),
    (0, 4),
    (0, 3),
];

fn region(c: &[i128]) -> restoration::Region {
    restoration::Region {
        left: c[0] as i32,
        top: c[1] as i32,
        width: c[2] as u32,
        height: c[3] as u32,
    }
}

fn original(c: &[i128]) -> oracle::Region {
    oracle::Region {
        left: c[0] as i32,
        top: c[1] as i32,
        width: c[2] as u32,
        height: c[3] as u32,
    }
}

fn wide(c: &[i128]) -> expected::Region {
    expected::Region {
        left: c[0],
        top: c[1],
        width: c[2],
        height: c[3],
    }
}

fn of_wide(r: expected::Region) -> [i128; 4] {
    [r.left, r.top, r.width, r.height]
}

fn ruled<T, const N: usize>(rule: Ruled<T>, fields: impl Fn(T) -> [i128; N]) -> Answer {
    match rule {
        Ok(value) => Answer::new(0, &fields(value)),
        Err(number) => Answer::refused(number),
    }
}

fn accepted(r: oracle::Region) -> Answer {
    let fields = [r.left.into(), r.top.into(), r.width.into(), r.height.into()];
    Answer::new(0, &fields)
}

fn holds(answer: BoolAnswer) -> Answer {
    Answer::new(answer.number, &[answer.holds.into()])
}

fn edge(answer: EdgeAnswer) -> Answer {
    Answer::new(answer.number, &[answer.edge.into()])
}

fn whole(answer: RegionAnswer) -> Answer {
    let r = answer.region;
    let fields = [r.left.into(), r.top.into(), r.width.into(), r.height.into()];
    Answer::new(answer.number, &fields)
}

//! Mirror: inputs are the offset and the length.

use crate::{
    expected::{self, limits::MAX_SIDE},
    kinds::{LENGTH, OFFSET},
    subject::{Answer, Subject},
};

pub const MIRROR: Subject = Subject {
    name: "mirror",
    inputs: &[&OFFSET, &LENGTH],
    outputs: 1,
    numbers: &[0, 9],
    ours: |c| {
        let answer = restoration::mirror(c[0] as isize, c[1] as usize);
        Answer::new(answer.number, &[answer.index as i128])
    },
    rule: |c| match expected::mirror(c[0], c[1]) {
        Ok(place) => Answer::new(0, &[place]),
        Err(number) => Answer::refused(number),
    },
    original: |c| Answer::new(0, &[oracle::mirror(c[0] as isize, c[1] as usize) as i128]),
    near: &[
        ("near zero", &[(-400, 400), (0, 100)]),
        (
            "long",
            &[
                (-3 * MAX_SIDE - 1, 3 * MAX_SIDE + 1),
                (MAX_SIDE - 1, MAX_SIDE + 1),
            ],
        ),
    ],
    named: &[&[-1, 1], &[-3, 2], &[5, 4], &[7, 3]],
};

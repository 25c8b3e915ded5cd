//! Group sizes: inputs are the frame's width, height, upsampling, LF level and group size shift. The
//! split of a block: its column or row and the group size shift.

use crate::{
    convert,
    expected::{self, limits::MAX_SIDE},
    kinds::{BLOCK_PLACE, FRAME_SIDE, GROUP_SIZE_SHIFT, LF_LEVEL, UPSAMPLING},
    subject::{Answer, Subject},
};

pub const GROUP_SIZES: Subject = Subject {
    name: "group_sizes",
    inputs: &[
        &FRAME_SIDE,
        &FRAME_SIDE,
        &UPSAMPLING,
        &LF_LEVEL,
        &GROUP_SIZE_SHIFT,
    ],
    outputs: 7,
    numbers: &[0, 4, 9],
    ours: |c| {
        let answer = restoration::group_sizes(convert::frame(frame(c)));
        let sizes = answer.sizes;
        let fields = [
            sizes.sample_width,
            sizes.sample_height,
            sizes.group_dim,
            sizes.group_shift,
            sizes.groups_per_row,
            sizes.groups_per_column,
            sizes.num_groups,
        ];
        Answer::new(answer.number, &fields.map(i128::from))
    },
    rule: |c| match expected::group_sizes(c[0], c[1], c[2], c[3], c[4]) {
        Ok(sizes) => Answer::new(0, &sizes),
        Err(number) => Answer::refused(number),
    },
    original: |c| {
        let sizes = oracle::group_sizes(frame(c));
        let fields = [
            sizes.sample_width,
            sizes.sample_height,
            sizes.group_dim,
            sizes.group_shift,
            sizes.groups_per_row,
            sizes.groups_per_column,
            sizes.num_groups,
        ];
        Answer::new(0, &fields.map(i128::from))
    },
    near: &[
        ("near zero", &[(0, 20), (0, 20), (0, 9), (0, 5), (0, 4)]),
        (
            "every width",
            &[(1, MAX_SIDE), (9, 9), (1, 8), (0, 4), (0, 3)],
        ),
        (
            "every height",
            &[(9, 9), (1, MAX_SIDE), (1, 8), (0, 4), (0, 3)],
        ),
    ],
    named: &[
        &[1_024, 1_025, 1, 0, 0],
        &[16_384, 16_384, 1, 0, 0],
        &[16_384, 1, 8, 4, 3],
        &[16_385, 1, 3, 5, 4],
    ],
};

fn frame(c: &[i128]) -> oracle::Frame {
    oracle::Frame {
        width: c[0] as u32,
        height: c[1] as u32,
        upsampling: c[2] as u32,
        lf_level: c[3] as u32,
        group_size_shift: c[4] as u32,
    }
}

pub const SPLIT_BLOCK: Subject = Subject {
    name: "split_block",
    inputs: &[&BLOCK_PLACE, &GROUP_SIZE_SHIFT],
    outputs: 2,
    numbers: &[0, 9],
    ours: |c| {
        let answer = restoration::split_block(c[0] as u32, c[1] as u32);
        Answer::new(answer.number, &[answer.group.into(), answer.inner.into()])
    },
    rule: |c| match expected::split_block(c[0], c[1]) {
        Ok(parts) => Answer::new(0, &parts),
        Err(number) => Answer::refused(number),
    },
    original: |c| {
        let (group, inner) = oracle::split_block(c[0] as u32, c[1] as u32);
        Answer::new(0, &[group.into(), inner.into()])
    },
    near: &[("near zero", &[(0, 5_000), (0, 5)])],
    named: &[&[127, 0], &[128, 0], &[128, 1], &[131_071, 3]],
};

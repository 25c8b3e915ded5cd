use jxl_frame::FrameHeader;

/// The frame header fields that group sizes depend on.
#[derive(Debug, Clone, Copy, PartialEq, Eq)]
pub struct Frame {
    pub width: u32,
    pub height: u32,
    pub upsampling: u32,
    pub lf_level: u32,
    pub group_size_shift: u32,
}

/// Width and height in samples, and LF groups of a frame.
#[derive(Debug, Clone, Copy, PartialEq, Eq)]
pub struct GroupSizes {
    pub sample_width: u32,
    pub sample_height: u32,
    pub group_dim: u32,
    pub group_shift: u32,
    pub groups_per_row: u32,
    pub groups_per_column: u32,
    pub num_groups: u32,
}

/// The frame as the original represents it.
pub(super) fn header(frame: Frame) -> FrameHeader {
    let mut header = FrameHeader::default();
    header.width = frame.width;
    header.height = frame.height;
    header.upsampling = frame.upsampling;
    header.lf_level = frame.lf_level;
    header.group_size_shift = frame.group_size_shift;
    header
}

/// The sizes by the methods of `FrameHeader`. There is none for groups per column: it is the number of
/// groups per row of the frame with width and height exchanged.
pub fn group_sizes(frame: Frame) -> GroupSizes {
    let upright = header(frame);
    let turned = header(Frame {
        width: frame.height,
        height: frame.width,
        ..frame
    });
    GroupSizes {
        sample_width: upright.color_sample_width(),
        sample_height: upright.color_sample_height(),
        group_dim: upright.group_dim(),
        group_shift: upright.group_dim().trailing_zeros(),
        groups_per_row: upright.lf_groups_per_row(),
        groups_per_column: turned.lf_groups_per_row(),
        num_groups: upright.num_lf_groups(),
    }
}

/// The group of a block column or row, and the block's index inside it.
///
/// `apply_epf` computes this inline. `group_idx_from_coord` uses the same shift; in a frame of one row
/// that is wide enough it answers the group itself, and the remainder is the index.
pub fn split_block(block: u32, group_size_shift: u32) -> (u32, u32) {
    let row = header(Frame {
        width: u32::MAX,
        height: 1,
        upsampling: 1,
        lf_level: 0,
        group_size_shift,
    });
    let group = row
        .group_idx_from_coord(block, 0)
        .expect("a block past the widest frame");
    (group, block - group * row.group_dim())
}

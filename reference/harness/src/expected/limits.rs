//! The library's sizes and limits as 128-bit numbers. Their values and meanings are in `restoration`.

macro_rules! widened {
    ($($name:ident)*) => {
        $(pub const $name: i128 = restoration::$name as i128;)*
    };
}

widened! {
    BLOCK
    GROUP_DIM
    MAX_ALIGNMENT
    MAX_AREA
    MAX_BANDS
    MAX_DOWNSAMPLE
    MAX_GROUP_SIZE_SHIFT
    MAX_ITERS
    MAX_LF_LEVEL
    MAX_OFFSET
    MAX_SIDE
    TABLE_ENTRY
}

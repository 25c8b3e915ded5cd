//! The number that the Gabor-like pass is refused with.

use super::{Region, Ruled, pass};

/// 0 if the pass over these rows, with sets of these lengths, is accepted.
pub fn number(
    image: Region,
    filter: Region,
    planes: u32,
    preserve_outside: u32,
    rows: (i128, i128),
    lengths: [usize; 2],
) -> u32 {
    let checked = || -> Ruled<()> {
        pass::placed(image, filter)?;
        pass::sets(image, planes, lengths)?;
        pass::planes(planes)?;
        let full = pass::flag(preserve_outside)?;
        let result = if full { image } else { filter };
        pass::rows(result, rows)
    };
    checked().err().unwrap_or(0)
}

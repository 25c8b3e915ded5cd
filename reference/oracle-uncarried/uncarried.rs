//! The one statement that the copy of `filter/epf.rs` has more than the original.

/// Where a block's grid is looked up.
const LOOK_UP: &str = "if let Some(grid)";
/// The block's sigma unless there is a grid; without this it is left as it was for the block above.
const SIGMA: &str = "*value = epf_params.sigma_for_modular; ";

/// The text with the statement inserted, if there is exactly one place for it.
pub fn without_carry(text: &str) -> Option<String> {
    let (before, after) = text.split_once(LOOK_UP)?;
    if after.contains(LOOK_UP) {
        return None;
    }
    Some([before, SIGMA, LOOK_UP, after].concat())
}

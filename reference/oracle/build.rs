//! Checks the digests of the original's files in `RESTORATION_RUST_SRC`, and writes modules that compile
//! them.

mod modules;

use modules::Modules;

fn main() {
    Modules::checked().write();
}

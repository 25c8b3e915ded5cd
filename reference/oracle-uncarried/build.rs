//! Compiles the original as `oracle` does, but for `filter/epf.rs` a copy in which a block of a group without
//! a grid has `sigma_for_modular`, not the sigma of the block above (Specification 7.6).

#[path = "../oracle/modules.rs"]
mod modules;
mod uncarried;

use std::{fs, process};

use modules::Modules;

fn main() {
    let mut modules = Modules::checked();
    let unchanged = fs::read_to_string(&modules.epf).unwrap();
    let Some(text) = uncarried::without_carry(&unchanged) else {
        println!(
            "cargo::error={}: not exactly one place where a block's grid is looked up",
            modules.epf.display()
        );
        process::exit(1)
    };
    modules.epf = modules.out.join("epf.rs");
    fs::write(&modules.epf, text).unwrap();
    modules.write();
}

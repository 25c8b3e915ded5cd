//! NaNs of every kind in all inputs of a call, to see that a refused call leaves their bits.

use restoration::Settings;

use super::input::{Input, State, floats};
use crate::{bits, random::Random};

pub fn in_input(h: &mut Input, random: &mut Random) {
    in_settings(&mut h.setup.settings, random);
    for buffer in [&mut h.grids, &mut h.first, &mut h.second, &mut h.sigmas] {
        bits::sprinkle(buffer, random);
    }
}

pub fn in_state(t: &mut State, random: &mut Random) {
    in_settings(&mut t.run.setup.settings, random);
    for buffer in [&mut t.first, &mut t.second, &mut t.sigmas] {
        bits::sprinkle(buffer, random);
    }
}

/// Some floats of the settings.
fn in_settings(settings: &mut Settings, random: &mut Random) {
    for float in floats(settings) {
        if random.once_in(4) {
            *float = bits::nan(random);
        }
    }
}

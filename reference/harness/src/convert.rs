//! Conversions of regions, frames and settings between the proved library, the original and the rules,
//! which use 128-bit numbers.

use restoration::{EpfSettings, EpfSigma};

use crate::expected;

pub fn region(r: oracle::Region) -> restoration::Region {
    restoration::Region {
        left: r.left,
        top: r.top,
        width: r.width,
        height: r.height,
    }
}

pub fn original(r: restoration::Region) -> oracle::Region {
    oracle::Region {
        left: r.left,
        top: r.top,
        width: r.width,
        height: r.height,
    }
}

pub fn wide(r: oracle::Region) -> expected::Region {
    expected::Region {
        left: r.left.into(),
        top: r.top.into(),
        width: r.width.into(),
        height: r.height.into(),
    }
}

pub fn frame(f: oracle::Frame) -> restoration::Frame {
    restoration::Frame {
        width: f.width,
        height: f.height,
        upsampling: f.upsampling,
        lf_level: f.lf_level,
        group_size_shift: f.group_size_shift,
    }
}

pub fn wide_frame(f: oracle::Frame) -> expected::sigma::Frame {
    expected::sigma::Frame {
        width: f.width.into(),
        height: f.height.into(),
        upsampling: f.upsampling.into(),
        lf_level: f.lf_level.into(),
        group_size_shift: f.group_size_shift.into(),
    }
}

/// The settings of an edge filter that is on. No pass reads the sharpness table.
pub const fn edge(epf: EpfSettings) -> oracle::Edge {
    oracle::Edge {
        iters: epf.iters,
        sharp_lut: [0.0; 8],
        channel_scale: epf.channel_scale,
        sigma: oracle::Sigma {
            quant_mul: epf.sigma.quant_mul,
            pass0_sigma_scale: epf.sigma.pass0_sigma_scale,
            pass2_sigma_scale: epf.sigma.pass2_sigma_scale,
            border_sad_mul: epf.sigma.border_sad_mul,
        },
        sigma_for_modular: epf.sigma_for_modular,
    }
}

pub fn epf_settings(edge: oracle::Edge) -> EpfSettings {
    EpfSettings {
        iters: edge.iters,
        channel_scale: edge.channel_scale,
        sigma: epf_sigma(edge.sigma),
        sigma_for_modular: edge.sigma_for_modular,
        ..EpfSettings::DEFAULT
    }
}

pub fn epf_sigma(sigma: oracle::Sigma) -> EpfSigma {
    EpfSigma {
        quant_mul: sigma.quant_mul,
        pass0_sigma_scale: sigma.pass0_sigma_scale,
        pass2_sigma_scale: sigma.pass2_sigma_scale,
        border_sad_mul: sigma.border_sad_mul,
        ..EpfSigma::DEFAULT
    }
}

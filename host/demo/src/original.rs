//! The original Rust on the same picture.

use restoration::{CHANNELS, EpfSettings, Region};

use crate::{picture::Picture, smooth::Filters};

/// Both filters over a whole picture of one group. The original has three planes: beside the one of a grey
/// picture there are planes of zeros, which have no part in distances, as their scales are 0. Where its
/// samples are finite, its plane is then filtered as one alone is.
pub fn smooth(filters: &Filters, picture: &Picture) -> Picture {
    let region = region(picture.region);
    let place = oracle::Place {
        image: region,
        filter: region,
        preserve_outside: true,
    };
    let count = picture.plane_count() as usize;
    let mut given = picture.planes.chunks_exact(picture.region.area());
    let zeros = || vec![0.0; picture.region.area()];
    let planes = [(); CHANNELS].map(|()| given.next().map_or_else(zeros, <[f32]>::to_vec));
    let grids = [grid(filters)];
    let mut epf = filters.settings.epf;
    epf.channel_scale[count..].fill(0.0);
    let edge = (edge(epf), frame(filters), &grids[..]);
    let weights = filters.settings.gabor.weights;
    let planes = oracle::filters(place, Some(weights), Some(edge), planes);
    Picture {
        region: picture.region,
        planes: planes[..count].concat(),
    }
}

fn region(r: Region) -> oracle::Region {
    oracle::Region {
        left: r.left,
        top: r.top,
        width: r.width,
        height: r.height,
    }
}

fn grid(filters: &Filters) -> Option<oracle::SigmaGrid> {
    let [1, width, height] = filters.table[..] else {
        return None;
    };
    Some(oracle::SigmaGrid {
        width: width as usize,
        height: height as usize,
        cells: filters.grids.clone(),
    })
}

fn frame(filters: &Filters) -> oracle::Frame {
    oracle::Frame {
        width: filters.frame.width,
        height: filters.frame.height,
        upsampling: filters.frame.upsampling,
        lf_level: filters.frame.lf_level,
        group_size_shift: filters.frame.group_size_shift,
    }
}

fn edge(epf: EpfSettings) -> oracle::Edge {
    oracle::Edge {
        iters: epf.iters,
        // No pass reads it.
        sharp_lut: [0.0; 8],
        channel_scale: epf.channel_scale,
        sigma: oracle::Sigma {
            quant_mul: epf.sigma.quant_mul,
            pass0_sigma_scale: epf.sigma.pass0_sigma_scale,
            pass2_sigma_scale: epf.sigma.pass2_sigma_scale,
            border_sad_mul: epf.sigma.border_sad_mul,
        },
        sigma_for_modular: epf.sigma_for_modular,
    }
}

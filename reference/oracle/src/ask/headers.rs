use jxl_frame::filter::{EdgePreservingFilter, Gabor};
use jxl_frame::header::Encoding;
use standins::{Bitstream, Bundle};

use crate::Error;

/// Two weights for each of three channels.
pub type Weights = [[f32; 2]; 3];

/// The four floats of the sigma settings.
#[derive(Debug, Clone, Copy, PartialEq)]
pub struct Sigma {
    pub quant_mul: f32,
    pub pass0_sigma_scale: f32,
    pub pass2_sigma_scale: f32,
    pub border_sad_mul: f32,
}

/// Settings of an edge filter that is on.
#[derive(Debug, Clone, Copy, PartialEq)]
pub struct Edge {
    pub iters: u32,
    pub sharp_lut: [f32; 8],
    pub channel_scale: [f32; 3],
    pub sigma: Sigma,
    pub sigma_for_modular: f32,
}

/// A half from a bit position, and the next position; by the stand-in that the bundles use.
pub fn read_half(bytes: &[u8], place: usize) -> Result<(f32, usize), Error> {
    let mut bits = Bitstream::new(bytes, place);
    let value = bits.read_f16_as_f32()?;
    Ok((value, bits.place()))
}

/// `Gabor::parse` from a bit position: the weights, `None` if the filter is off, and the next position.
pub fn parse_gabor(bytes: &[u8], place: usize) -> Result<(Option<Weights>, usize), Error> {
    let mut bits = Bitstream::new(bytes, place);
    let gabor = Gabor::parse(&mut bits, ())?;
    Ok((weights(gabor), bits.place()))
}

/// `EdgePreservingFilter::parse` from a bit position: the settings, `None` if the filter is off, and the
/// next position.
pub fn parse_epf(
    bytes: &[u8],
    place: usize,
    modular: bool,
) -> Result<(Option<Edge>, usize), Error> {
    let mut bits = Bitstream::new(bytes, place);
    let edge = EdgePreservingFilter::parse(&mut bits, encoding(modular))?;
    Ok((settings(edge), bits.place()))
}

/// Both bundles from one stream, in the order of `RestorationFilter`'s fields.
pub fn parse_filters(
    bytes: &[u8],
    place: usize,
    modular: bool,
) -> Result<(Option<Weights>, Option<Edge>, usize), Error> {
    let mut bits = Bitstream::new(bytes, place);
    let gabor = Gabor::parse(&mut bits, encoding(modular))?;
    let edge = EdgePreservingFilter::parse(&mut bits, encoding(modular))?;
    Ok((weights(gabor), settings(edge), bits.place()))
}

fn encoding(modular: bool) -> Encoding {
    if modular {
        Encoding::Modular
    } else {
        Encoding::VarDct
    }
}

fn weights(gabor: Gabor) -> Option<Weights> {
    match gabor {
        Gabor::Disabled => None,
        Gabor::Enabled(weights) => Some(weights),
    }
}

fn settings(edge: EdgePreservingFilter) -> Option<Edge> {
    let EdgePreservingFilter::Enabled(params) = edge else {
        return None;
    };
    Some(Edge {
        iters: params.iters,
        sharp_lut: params.sharp_lut,
        channel_scale: params.channel_scale,
        sigma: Sigma {
            quant_mul: params.sigma.quant_mul,
            pass0_sigma_scale: params.sigma.pass0_sigma_scale,
            pass2_sigma_scale: params.sigma.pass2_sigma_scale,
            border_sad_mul: params.sigma.border_sad_mul,
        },
        sigma_for_modular: params.sigma_for_modular,
    })
}

//! The published loops, and one instance of their private function for each of the settings that are measured.
#![allow(dead_code)]
use crate::shim::num_traits;

include!(concat!(env!("OUT_DIR"), "/rgb_to_nv_p16.rs"));

pub type Loops = fn(
    &mut YuvBiPlanarImageMut<u16>,
    &[u16],
    u32,
    YuvRange,
    YuvStandardMatrix,
) -> Result<(), YuvError>;

fn instance<J, const CHANNELS: u8, const SUBSAMPLING: u8, const DEPTH: u8>() -> Loops
where
    J: AsPrimitive<i32> + Send + Sync,
    i32: AsPrimitive<J>,
{
    rgbx_to_yuv_bi_planar_10_impl::<
        J,
        CHANNELS,
        { YuvNVOrder::UV as u8 },
        SUBSAMPLING,
        { YuvEndianness::LittleEndian as u8 },
        { YuvBytesPacking::MostSignificantBytes as u8 },
        DEPTH,
    >
}

fn by_subsampling<J, const CHANNELS: u8, const DEPTH: u8>(
    subsampling: YuvChromaSubsampling,
) -> Loops
where
    J: AsPrimitive<i32> + Send + Sync,
    i32: AsPrimitive<J>,
{
    match subsampling {
        YuvChromaSubsampling::Yuv420 => {
            instance::<J, CHANNELS, { YuvChromaSubsampling::Yuv420 as u8 }, DEPTH>()
        }
        YuvChromaSubsampling::Yuv422 => {
            instance::<J, CHANNELS, { YuvChromaSubsampling::Yuv422 as u8 }, DEPTH>()
        }
        YuvChromaSubsampling::Yuv444 => {
            instance::<J, CHANNELS, { YuvChromaSubsampling::Yuv444 as u8 }, DEPTH>()
        }
    }
}

/// The loops with weights of the type that the crate has for the depth.
pub fn loops(
    depth: u32,
    channels: YuvSourceChannels,
    subsampling: YuvChromaSubsampling,
) -> Option<Loops> {
    const RGB: u8 = YuvSourceChannels::Rgb as u8;
    const RGBA: u8 = YuvSourceChannels::Rgba as u8;
    match (depth, channels) {
        (10, YuvSourceChannels::Rgb) => Some(by_subsampling::<i16, RGB, 10>(subsampling)),
        (10, YuvSourceChannels::Rgba) => Some(by_subsampling::<i16, RGBA, 10>(subsampling)),
        (16, YuvSourceChannels::Rgb) => Some(by_subsampling::<i32, RGB, 16>(subsampling)),
        (16, YuvSourceChannels::Rgba) => Some(by_subsampling::<i32, RGBA, 16>(subsampling)),
        _ => None,
    }
}

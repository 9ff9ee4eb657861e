//! The published text of yuvutils-rs 0.8.3, taken from the build's own folder, made to run: `shim` has what it leans on, `loops`
//! reaches its private function at every precision and in every combination, and `checks` its private checks.
#[allow(dead_code)]
mod built_coefficients {
    include!(concat!(env!("OUT_DIR"), "/built_coefficients.rs"));
}
#[allow(dead_code)]
mod yuv_error {
    include!(concat!(env!("OUT_DIR"), "/yuv_error.rs"));
}
#[allow(dead_code)]
mod yuv_support {
    use crate::shim::num_traits;
    include!(concat!(env!("OUT_DIR"), "/yuv_support.rs"));
}

pub mod checks;
mod loops;
mod shim;

pub use loops::{convert, Call, Choice};
pub use shim::{Plane, YuvBiPlanarImageMut};
pub use yuv_error::YuvError;
pub use yuv_support::{
    get_forward_transform, get_yuv_range, ToIntegerTransform, YuvBytesPacking,
    YuvChromaSubsampling, YuvEndianness, YuvNVOrder, YuvRange, YuvSourceChannels,
    YuvStandardMatrix,
};

/// The file with the loops, as published.
pub const LOOPS: &str = include_str!(concat!(env!("OUT_DIR"), "/rgb_to_nv_p16.rs"));
/// The root of the crate, as published: it says which functions the crate offers.
pub const ROOT: &str = include_str!(concat!(env!("OUT_DIR"), "/lib.rs"));

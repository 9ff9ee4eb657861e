//! The published text of yuvutils-rs 0.8.3, taken from the build's own folder. It is a crate of its own, so that it is compiled as
//! its users have it.
#[allow(dead_code, clippy::all)]
mod built_coefficients {
    include!(concat!(env!("OUT_DIR"), "/built_coefficients.rs"));
}
#[allow(dead_code, clippy::all)]
mod yuv_error {
    include!(concat!(env!("OUT_DIR"), "/yuv_error.rs"));
}
#[allow(dead_code, clippy::all)]
mod yuv_support {
    use crate::shim::num_traits;
    include!(concat!(env!("OUT_DIR"), "/yuv_support.rs"));
}

#[path = "../../compare/beside/published/src/checks.rs"]
#[allow(dead_code)]
mod checks;
mod loops;
#[path = "../../compare/beside/published/src/shim.rs"]
mod shim;

pub use loops::{loops, Loops};
pub use shim::{Plane, YuvBiPlanarImageMut};
pub use yuv_error::YuvError;
pub use yuv_support::{
    YuvBytesPacking, YuvChromaSubsampling, YuvEndianness, YuvNVOrder, YuvRange, YuvSourceChannels,
    YuvStandardMatrix,
};

//! What the crate's loops leave in the planes, told from what the library leaves there.
//!
//! At 4:2:0 with odd width the crate stores the last luma of the lower row of two at that row's first element. At width 1 the two
//! are one element, and nothing is spoiled.
use crate::frame::{Frame, Planes};
use crate::settings::Settings;

pub fn is_met(settings: &Settings, frame: &Frame) -> bool {
    settings.subsampling == 0 && frame.width % 2 == 1 && frame.width >= 3 && frame.height >= 2
}

/// The crate's planes, from the library's and from the planes before.
pub fn predicted(settings: &Settings, frame: &Frame, ours: &Planes, before: &Planes) -> Planes {
    let mut planes = ours.clone();
    if is_met(settings, frame) {
        for row in (1..frame.height).step_by(2) {
            let first = row * frame.luma_stride;
            let last = first + frame.width - 1;
            planes.luma[first] = ours.luma[last];
            planes.luma[last] = before.luma[last];
        }
    }
    planes
}

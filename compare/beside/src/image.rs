//! A frame's planes as the published loops take them.
use crate::frame::{Frame, Planes};
use published::{Plane, YuvBiPlanarImageMut};

pub fn short(size: usize) -> u32 {
    u32::try_from(size).expect("the crate takes sizes and strides of 32 bits")
}

/// `is_checked` says whether the published checks of both planes are asked before the loops.
pub fn of<'a>(
    frame: &Frame,
    planes: &'a mut Planes,
    is_checked: bool,
) -> YuvBiPlanarImageMut<'a, u16> {
    YuvBiPlanarImageMut {
        y_plane: Plane(&mut planes.luma),
        y_stride: short(frame.luma_stride),
        uv_plane: Plane(&mut planes.chroma),
        uv_stride: short(frame.chroma_stride),
        width: short(frame.width),
        height: short(frame.height),
        is_checked,
    }
}

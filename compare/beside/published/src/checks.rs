//! The checks of the published text that stand on the way of a 16-bit frame.
use crate::yuv_error::{
    check_interleaved_chroma_channel, check_rgba_destination, check_y8_channel,
};
use crate::{YuvChromaSubsampling, YuvError};

pub fn source<V>(
    source: &[V],
    stride: u32,
    width: u32,
    height: u32,
    channels: usize,
) -> Result<(), YuvError> {
    check_rgba_destination(source, stride, width, height, channels)
}

pub fn luma<V>(luma: &[V], stride: u32, width: u32, height: u32) -> Result<(), YuvError> {
    check_y8_channel(luma, stride, width, height)
}

pub fn chroma<V>(
    chroma: &[V],
    stride: u32,
    width: u32,
    height: u32,
    subsampling: YuvChromaSubsampling,
) -> Result<(), YuvError> {
    check_interleaved_chroma_channel(chroma, stride, width, height, subsampling)
}

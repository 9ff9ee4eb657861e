//! Rows and lengths of a frame's buffers.
use super::{Frame, Settings};

/// Elements of a pixel.
pub fn pixel_elements(settings: &Settings) -> u128 {
    match settings.channels {
        0 | 3 => 3,
        _ => 4,
    }
}

/// "2·width for 4:4:4, else twice width halved and rounded up".
pub fn chroma_elements(settings: &Settings, width: usize) -> u128 {
    let width = width as u128;
    match settings.subsampling {
        2 => 2 * width,
        _ => 2 * width.div_ceil(2),
    }
}

/// "height, or for 4:2:0 height halved and rounded up".
pub fn chroma_rows(settings: &Settings, height: usize) -> u128 {
    let height = height as u128;
    match settings.subsampling {
        0 => height.div_ceil(2),
        _ => height,
    }
}

impl Frame {
    /// Elements in a row of source, luma and chroma that its stride must cover: "(first column + width) pixels", and the
    /// visible rows of the planes.
    pub fn covered(&self, settings: &Settings) -> [u128; 3] {
        let width = self.width as u128;
        let pixels = self.first_column as u128 + width;
        let chroma = chroma_elements(settings, self.width);
        [pixels * pixel_elements(settings), width, chroma]
    }

    pub fn strides(&self) -> [usize; 3] {
        [self.source_stride, self.luma_stride, self.chroma_stride]
    }

    /// "exactly stride × rows", of source, luma and chroma; "source length is stride × source rows".
    pub fn lengths(&self, settings: &Settings) -> [u128; 3] {
        let chroma_rows = chroma_rows(settings, self.height);
        let rows = [self.source_rows as u128, self.height as u128, chroma_rows];
        let strides = self.strides();
        [0, 1, 2].map(|i| strides[i] as u128 * rows[i])
    }
}

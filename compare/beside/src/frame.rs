//! The sizes of a frame, and its planes.
pub use crate::raw::Frame;
use crate::settings::Settings;
use std::fmt;

impl Frame {
    /// A whole frame with so many elements of padding in each row of the source, the luma plane and the chroma plane.
    pub fn padded(settings: &Settings, width: usize, height: usize, padding: [usize; 3]) -> Frame {
        let strides = [
            width * settings.channel_count() + padding[0],
            width + padding[1],
            settings.chroma_width(width) + padding[2],
        ];
        Frame::whole(width, height, strides)
    }

    /// A frame that is the whole source, which is the only kind that the crate has. The strides are those of source, luma and chroma.
    pub fn whole(width: usize, height: usize, strides: [usize; 3]) -> Frame {
        let [source_stride, luma_stride, chroma_stride] = strides;
        Frame {
            width,
            height,
            source_stride,
            luma_stride,
            chroma_stride,
            first_column: 0,
            first_row: 0,
            source_rows: height,
        }
    }

    pub fn source_length(&self) -> usize {
        self.source_stride * self.source_rows
    }

    pub fn luma_length(&self) -> usize {
        self.luma_stride * self.height
    }

    pub fn chroma_length(&self, settings: &Settings) -> usize {
        self.chroma_stride * settings.chroma_rows(self.height)
    }
}

impl fmt::Display for Frame {
    fn fmt(&self, f: &mut fmt::Formatter) -> fmt::Result {
        write!(
            f,
            "{}x{}, strides {} {} {}",
            self.width, self.height, self.source_stride, self.luma_stride, self.chroma_stride
        )
    }
}

#[derive(Clone, PartialEq)]
pub struct Planes {
    pub luma: Vec<u16>,
    pub chroma: Vec<u16>,
}

impl Planes {
    pub fn filled(luma_length: usize, chroma_length: usize, word: u16) -> Planes {
        Planes {
            luma: vec![word; luma_length],
            chroma: vec![word; chroma_length],
        }
    }
}

//! Frames made by names, and the lengths of a frame's three buffers.
use crate::{Frame, Settings, YuvChromaSubsampling};

/// The exact lengths of a frame's buffers in u16 elements.
#[derive(Debug, Clone, Copy, PartialEq, Eq)]
pub struct Lengths {
    /// Of the source, or of the RGB buffer that [`to_rgb`](crate::to_rgb()) writes.
    pub source: usize,
    /// Of the luma plane.
    pub luma: usize,
    /// Of the chroma plane.
    pub chroma: usize,
}

/// From one row of each buffer to the next, in u16 elements.
#[derive(Debug, Clone, Copy, PartialEq, Eq)]
pub struct Strides {
    /// Of the source, or of the RGB buffer that [`to_rgb`](crate::to_rgb()) writes.
    pub source: usize,
    /// Of the luma plane.
    pub luma: usize,
    /// Of the chroma plane.
    pub chroma: usize,
}

/// Which pixels of a source, or of an RGB buffer in its place, are visible. Its corner is the first of them.
#[derive(Debug, Clone, Copy, PartialEq, Eq)]
pub struct Window {
    /// Pixels of a source row before the window.
    pub first_column: usize,
    /// Rows of the source before the window.
    pub first_row: usize,
    /// Pixels in a row of the window.
    pub width: usize,
    /// Rows of the window.
    pub height: usize,
}

impl Frame {
    /// A whole frame without padding.
    ///
    /// ```
    /// # use ayresokum::{Frame, Settings, YuvChromaSubsampling, YuvRange, YuvSourceChannels, YuvStandardMatrix};
    /// # let settings = Settings::new(
    /// #     10,
    /// #     YuvStandardMatrix::Bt709,
    /// #     YuvRange::Limited,
    /// #     YuvChromaSubsampling::Yuv420,
    /// #     YuvSourceChannels::Rgb,
    /// # );
    /// let frame = Frame::unpadded(&settings, 5, 3);
    /// assert_eq!((frame.source_stride, frame.luma_stride, frame.chroma_stride), (15, 5, 6));
    /// let lengths = frame.lengths(&settings);
    /// assert_eq!((lengths.source, lengths.luma, lengths.chroma), (45, 15, 12));
    /// ```
    // Where a product would overflow it stays at the greatest number, and the frame is refused for its size.
    pub const fn unpadded(settings: &Settings, width: usize, height: usize) -> Frame {
        let pairs = match settings.subsampling {
            YuvChromaSubsampling::Yuv444 => width,
            YuvChromaSubsampling::Yuv420 | YuvChromaSubsampling::Yuv422 => width.div_ceil(2),
        };
        let strides = Strides {
            source: width.saturating_mul(settings.channels.get_channels_count()),
            luma: width,
            chroma: pairs.saturating_mul(2),
        };
        Frame::whole(width, height, strides)
    }

    /// A frame that is the whole source.
    ///
    /// ```
    /// use ayresokum::{Frame, Strides};
    ///
    /// let frame = Frame::whole(5, 3, Strides { source: 16, luma: 8, chroma: 8 });
    /// assert_eq!((frame.first_column, frame.first_row, frame.source_rows), (0, 0, 3));
    /// ```
    pub const fn whole(width: usize, height: usize, strides: Strides) -> Frame {
        let window = Window {
            first_column: 0,
            first_row: 0,
            width,
            height,
        };
        Frame::window(window, height, strides)
    }

    /// A frame that is a window on a source of so many rows. The source's stride is that of the source, whose rows are longer
    /// than those of the window.
    ///
    /// ```
    /// # use ayresokum::{
    /// #     Frame, Settings, Strides, Window, YuvChromaSubsampling, YuvRange, YuvSourceChannels, YuvStandardMatrix,
    /// # };
    /// # let settings = Settings::new(
    /// #     10,
    /// #     YuvStandardMatrix::Bt709,
    /// #     YuvRange::Limited,
    /// #     YuvChromaSubsampling::Yuv420,
    /// #     YuvSourceChannels::Rgb,
    /// # );
    /// // A strip across a sensor of 1920 × 1200 pixels.
    /// let strip = Window { first_column: 301, first_row: 515, width: 1000, height: 64 };
    /// let frame = Frame::window(strip, 1200, Strides { source: 1920 * 3, luma: 1000, chroma: 1000 });
    /// let lengths = frame.lengths(&settings);
    /// assert_eq!(lengths.source, 1200 * 1920 * 3);
    /// assert_eq!((lengths.luma, lengths.chroma), (64 * 1000, 32 * 1000));
    /// ```
    pub const fn window(window: Window, source_rows: usize, strides: Strides) -> Frame {
        Frame {
            width: window.width,
            height: window.height,
            source_stride: strides.source,
            luma_stride: strides.luma,
            chroma_stride: strides.chroma,
            first_column: window.first_column,
            first_row: window.first_row,
            source_rows,
        }
    }

    /// Stride × rows of each buffer, where the source has all of its rows. No other lengths are taken, and by
    /// [`convert_ring`](crate::convert_ring()) none but the count of frames times these.
    pub const fn lengths(&self, settings: &Settings) -> Lengths {
        let chroma_rows = match settings.subsampling {
            YuvChromaSubsampling::Yuv420 => self.height.div_ceil(2),
            YuvChromaSubsampling::Yuv422 | YuvChromaSubsampling::Yuv444 => self.height,
        };
        Lengths {
            source: self.source_stride.saturating_mul(self.source_rows),
            luma: self.luma_stride.saturating_mul(self.height),
            chroma: self.chroma_stride.saturating_mul(chroma_rows),
        }
    }
}

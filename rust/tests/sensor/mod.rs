//! A small sensor and a window on it, converted, checked and turned back by the crate's functions.
use ayresokum::{
    check, convert, convert_ring, to_rgb, Channel, Checked, Frame, Refusal, RingEnded, Settings,
    SourcePlace, Strides, Window, YuvChromaSubsampling, YuvRange, YuvSourceChannels,
    YuvStandardMatrix,
};
use YuvSourceChannels::{Bgr, Bgra, Rgb, Rgba};

pub const COLUMNS: usize = 9;
pub const ROWS: usize = 8;
/// Elements past the last pixel in each row of a source, and past the last sample in each row of the planes.
const PADDING: usize = 2;
/// What the buffers that are written hold before a call.
pub const OLD: u16 = 7;

#[derive(Clone, PartialEq, Debug)]
pub struct Planes {
    pub luma: Vec<u16>,
    pub chroma: Vec<u16>,
}

/// Planes of several frames end to end.
impl FromIterator<Planes> for Planes {
    fn from_iter<I: IntoIterator<Item = Planes>>(frames: I) -> Planes {
        let (mut luma, mut chroma) = (Vec::new(), Vec::new());
        for planes in frames {
            luma.extend(planes.luma);
            chroma.extend(planes.chroma);
        }
        Planes { luma, chroma }
    }
}

/// A source and the frame that is a window on it.
#[derive(Clone)]
pub struct Sensor {
    pub settings: Settings,
    pub frame: Frame,
    pub source: Vec<u16>,
}

/// At 10 bits.
pub const fn settings(subsampling: YuvChromaSubsampling, channels: YuvSourceChannels) -> Settings {
    Settings::new(
        10,
        YuvStandardMatrix::Bt709,
        YuvRange::Limited,
        subsampling,
        channels,
    )
}

fn strides(settings: &Settings, columns: usize, width: usize) -> Strides {
    let visible = Frame::unpadded(settings, width, 1);
    Strides {
        source: columns * settings.channels.get_channels_count() + PADDING,
        luma: visible.luma_stride + PADDING,
        chroma: visible.chroma_stride + PADDING,
    }
}

impl Sensor {
    /// Each sample depends on its place, and what lies past the last pixel of a row is above m.
    pub fn new(settings: Settings, window: Window) -> Sensor {
        let strides = strides(&settings, COLUMNS, window.width);
        let sample = |i: usize| match i % strides.source {
            at if at < strides.source - PADDING => (i as u32 * 331 % 1024) as u16,
            _ => u16::MAX,
        };
        Sensor {
            settings,
            frame: Frame::window(window, ROWS, strides),
            source: (0..ROWS * strides.source).map(sample).collect(),
        }
    }

    /// The window's pixels in a source of their own.
    pub fn cut_out(&self) -> Sensor {
        let Frame { width, height, .. } = self.frame;
        let strides = strides(&self.settings, width, width);
        let visible = strides.source - PADDING;
        let mut source = vec![u16::MAX; height * strides.source];
        for (row, part) in source.chunks_exact_mut(strides.source).enumerate() {
            let start = self.pixel(self.frame.first_row + row, self.frame.first_column);
            part[..visible].copy_from_slice(&self.source[start..start + visible]);
        }
        Sensor {
            frame: Frame::whole(width, height, strides),
            source,
            ..*self
        }
    }

    pub fn old_planes(&self, frames: usize) -> Planes {
        let lengths = self.frame.lengths(&self.settings);
        Planes {
            luma: vec![OLD; frames * lengths.luma],
            chroma: vec![OLD; frames * lengths.chroma],
        }
    }

    /// The answer, and both planes after.
    pub fn convert(&self) -> (Result<(), Refusal>, Planes) {
        let mut planes = self.old_planes(1);
        let Planes { luma, chroma } = &mut planes;
        let answer = convert(&self.settings, &self.frame, &self.source, luma, chroma);
        (answer, planes)
    }

    pub fn check(&self, planes: &Planes) -> Result<Checked, Refusal> {
        let Planes { luma, chroma } = planes;
        check(&self.settings, &self.frame, &self.source, luma, chroma)
    }

    /// The same of a ring: so many frames that have this one's settings and window.
    pub fn convert_ring(&self, frames: usize, source: &[u16]) -> (Result<(), RingEnded>, Planes) {
        let mut planes = self.old_planes(frames);
        let Planes { luma, chroma } = &mut planes;
        let answer = convert_ring(&self.settings, &self.frame, frames, source, luma, chroma);
        (answer, planes)
    }

    /// The answer of the way back, and an RGB buffer as large as the source after.
    pub fn to_rgb(&self, planes: &Planes) -> (Result<(), Refusal>, Vec<u16>) {
        let Planes { luma, chroma } = planes;
        let mut rgb = vec![OLD; self.source.len()];
        let answer = to_rgb(&self.settings, &self.frame, luma, chroma, &mut rgb);
        (answer, rgb)
    }

    /// The elements of each row of the window, from the first on.
    pub fn rows(&self) -> impl Iterator<Item = std::ops::Range<usize>> + '_ {
        let Frame { width, height, .. } = self.frame;
        (0..height).map(move |row| {
            let row = self.frame.first_row + row;
            let first = self.frame.first_column;
            self.pixel(row, first)..self.pixel(row, first + width)
        })
    }

    fn pixel(&self, row: usize, column: usize) -> usize {
        let elements = self.settings.channels.get_channels_count();
        row * self.frame.source_stride + column * elements
    }

    /// Where the colours of a pixel of the sensor stand in the source, red first.
    pub fn colours(&self, row: usize, column: usize) -> [usize; 3] {
        let pixel = self.pixel(row, column);
        match self.settings.channels {
            Rgb | Rgba => [pixel, pixel + 1, pixel + 2],
            Bgr | Bgra => [pixel + 2, pixel + 1, pixel],
        }
    }

    /// The place of a pixel of the sensor counted from the window's corner, or none where it lies outside.
    pub fn place(&self, row: usize, column: usize, channel: Channel) -> Option<SourcePlace> {
        let row = row.checked_sub(self.frame.first_row)?;
        let pixel = column.checked_sub(self.frame.first_column)?;
        let is_inside = row < self.frame.height && pixel < self.frame.width;
        is_inside.then_some(SourcePlace {
            row,
            pixel,
            channel,
        })
    }
}

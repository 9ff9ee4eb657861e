//! Where a sample of the source stands.
use crate::raw::SampleNumbers;
use std::fmt;

/// Where a sample of the source stands. Rows and pixels count from 0 at the window's corner.
#[derive(Debug, Clone, Copy, PartialEq, Eq, Hash)]
pub struct SourcePlace {
    /// Its row.
    pub row: usize,
    /// Its pixel in the row.
    pub pixel: usize,
    /// Its channel in the pixel.
    pub channel: Channel,
}

impl SourcePlace {
    pub(crate) fn of(sample: SampleNumbers) -> SourcePlace {
        SourcePlace {
            row: sample.row as usize,
            pixel: sample.pixel as usize,
            channel: Channel::of(sample.channel),
        }
    }
}

/// `row 3, pixel 17, green`.
impl fmt::Display for SourcePlace {
    fn fmt(&self, f: &mut fmt::Formatter<'_>) -> fmt::Result {
        let SourcePlace {
            row,
            pixel,
            channel,
        } = self;
        write!(f, "row {row}, pixel {pixel}, {channel}")
    }
}

/// A colour of a pixel, wherever the channel layout puts it.
#[derive(Debug, Clone, Copy, PartialEq, Eq, Hash)]
pub enum Channel {
    /// Red.
    Red,
    /// Green.
    Green,
    /// Blue.
    Blue,
}

impl Channel {
    fn of(number: u32) -> Channel {
        match number {
            0 => Channel::Red,
            1 => Channel::Green,
            2 => Channel::Blue,
            _ => panic!("the linked library has a channel {number}, unknown here"),
        }
    }
}

/// `red`, `green` or `blue`.
impl fmt::Display for Channel {
    fn fmt(&self, f: &mut fmt::Formatter<'_>) -> fmt::Result {
        f.write_str(match self {
            Channel::Red => "red",
            Channel::Green => "green",
            Channel::Blue => "blue",
        })
    }
}

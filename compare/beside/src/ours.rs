//! The proved library, by its C interface.
use crate::frame::{Frame, Planes};
use crate::raw::{self, CheckedNumbers, ConvertedNumbers, SettledNumbers};
use crate::settings::Settings;
use std::fmt;

pub const TOO_LARGE: u32 = 10;
const COLOURS: [&str; 3] = ["red", "green", "blue"];

pub fn convert(
    settings: &Settings,
    frame: &Frame,
    source: &[u16],
    planes: &mut Planes,
) -> ConvertedNumbers {
    let Planes { luma, chroma } = planes;
    raw::convert(*settings, *frame, source, luma, chroma)
}

/// 0, or the number of the refusal, and what it carries: `10: row 0, pixel 0, red`.
impl fmt::Display for ConvertedNumbers {
    fn fmt(&self, f: &mut fmt::Formatter) -> fmt::Result {
        write!(f, "{}", self.refusal)?;
        if self.refusal == TOO_LARGE {
            let colour = COLOURS[self.sample.channel as usize];
            write!(
                f,
                ": row {}, pixel {}, {colour}",
                self.sample.row, self.sample.pixel
            )?;
        }
        Ok(())
    }
}

pub fn check(
    settings: &Settings,
    frame: &Frame,
    source: &[u16],
    planes: &Planes,
) -> CheckedNumbers {
    raw::check(*settings, *frame, source, &planes.luma, &planes.chroma)
}

pub fn settle(settings: &Settings) -> SettledNumbers {
    raw::settle(*settings)
}

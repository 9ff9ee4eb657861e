//! What a refusal is, and refusals 7, 12 and 8 to 10, which convert and check share, of which a ring asks the first three once, and the
//! way back all but the last.
use super::places::pixel;
use super::samples::Sample;
use super::{Frame, Settings};

/// Row, pixel and channel (0 red, 1 green, 2 blue) of a sample of the source.
#[derive(Debug, Clone, Copy, PartialEq, Eq)]
pub struct SourcePlace {
    pub row: usize,
    pub pixel: usize,
    pub channel: usize,
}

/// The number of a refusal, and what it carries: "Refusal 10 is to carry row, pixel and channel", and 13 the sample that is not well
/// formed, "with its place in the check's order".
#[derive(Debug, Clone, Copy, PartialEq, Eq)]
pub struct Refusal {
    pub number: u32,
    pub place: Option<SourcePlace>,
    pub sample: Option<Sample>,
}

impl From<u32> for Refusal {
    fn from(number: u32) -> Refusal {
        Refusal {
            number,
            place: None,
            sample: None,
        }
    }
}

fn size_off(size: usize) -> bool {
    size == 0 || size > 16_384
}

/// "a window number over 16,384 or first row + height over the source rows".
fn window_off(frame: &Frame) -> bool {
    let numbers = [frame.first_column, frame.first_row, frame.source_rows];
    let end = frame.first_row as u128 + frame.height as u128;
    numbers.iter().any(|&number| number > 16_384) || end > frame.source_rows as u128
}

fn stride_off(stride: usize, covered: u128) -> bool {
    (stride as u128) < covered || stride > 65_536
}

/// "row, pixel and channel (red before green before blue) of the first too-large visible sample, reading row by row".
fn first_too_large(settings: &Settings, frame: &Frame, source: &[u16]) -> Option<SourcePlace> {
    for row in 0..frame.height {
        for column in 0..frame.width {
            let colours = pixel(settings, frame, source, row, column);
            for (channel, &colour) in colours.iter().enumerate() {
                if colour > settings.most() {
                    return Some(SourcePlace {
                        row,
                        pixel: column,
                        channel,
                    });
                }
            }
        }
    }
    None
}

/// The first of refusals 7, 12 and 8 that applies, for settings that settle accepts: 12 comes "directly after 7".
pub fn layout_refusal(settings: &Settings, frame: &Frame) -> Result<(), Refusal> {
    if size_off(frame.width) || size_off(frame.height) {
        return Err(7.into());
    }
    if window_off(frame) {
        return Err(12.into());
    }
    let strides = frame.strides();
    let covered = frame.covered(settings);
    if (0..3).any(|i| stride_off(strides[i], covered[i])) {
        return Err(8.into());
    }
    Ok(())
}

/// The first of refusals 7, 12, 8 and 9 that applies, for settings that settle accepts. The buffers are source or RGB, luma and
/// chroma.
pub fn buffers_refusal(
    settings: &Settings,
    frame: &Frame,
    buffers: [&[u16]; 3],
) -> Result<(), Refusal> {
    layout_refusal(settings, frame)?;
    if buffers.map(|b| b.len() as u128) != frame.lengths(settings) {
        return Err(9.into());
    }
    Ok(())
}

/// The same, and then refusal 10. The buffers are source, luma and chroma.
pub fn frame_refusal(
    settings: &Settings,
    frame: &Frame,
    buffers: [&[u16]; 3],
) -> Result<(), Refusal> {
    buffers_refusal(settings, frame, buffers)?;
    match first_too_large(settings, frame, buffers[0]) {
        None => Ok(()),
        place => Err(Refusal { place, ..10.into() }),
    }
}

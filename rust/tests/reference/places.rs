//! Where the channels of a pixel stand.
use super::frame::pixel_elements;
use super::sample::Pixel;
use super::{Frame, Settings};

/// The elements of a pixel that hold red, green and blue.
pub fn colours(settings: &Settings) -> [usize; 3] {
    match settings.channels {
        0 | 1 => [0, 1, 2],
        _ => [2, 1, 0],
    }
}

/// The first element of a pixel of the window, counted from its corner.
pub fn pixel_start(settings: &Settings, frame: &Frame, row: usize, column: usize) -> usize {
    let (row, column) = (frame.first_row + row, frame.first_column + column);
    row * frame.source_stride + column * pixel_elements(settings) as usize
}

/// A pixel of the window, counted from its corner.
pub fn pixel(
    settings: &Settings,
    frame: &Frame,
    source: &[u16],
    row: usize,
    column: usize,
) -> Pixel {
    let at = pixel_start(settings, frame, row, column);
    colours(settings).map(|place| i128::from(source[at + place]))
}

/// Whether an element of a chroma row is a U: "UV puts U first; VU puts V first".
pub fn is_u(settings: &Settings, element: usize) -> bool {
    element % 2 == settings.order as usize
}

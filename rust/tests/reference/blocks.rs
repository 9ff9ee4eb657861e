//! The pixels that a chroma pair is made from.
use super::places::pixel;
use super::sample::Pixel;
use super::{Frame, Settings};

/// The two pixels of a pair along a line, or the odd last one by itself.
fn pair(at: usize, end: usize) -> Vec<usize> {
    (2 * at..2 * at + 2).filter(|&i| i < end).collect()
}

pub fn block(
    settings: &Settings,
    frame: &Frame,
    source: &[u16],
    row: usize,
    at: usize,
) -> Vec<Pixel> {
    let columns = match settings.subsampling {
        2 => vec![at],
        _ => pair(at, frame.width),
    };
    let rows = match settings.subsampling {
        0 => pair(row, frame.height),
        _ => vec![row],
    };
    let mut pixels = Vec::new();
    for &row in &rows {
        for &column in &columns {
            pixels.push(pixel(settings, frame, source, row, column));
        }
    }
    pixels
}

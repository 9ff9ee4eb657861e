//! The visible samples of both planes, in the check's order.
use super::frame::{chroma_elements, chroma_rows};
use super::{Frame, Settings};

/// Plane (0 luma, 1 chroma), row and element.
#[derive(Debug, Clone, Copy, PartialEq, Eq)]
pub struct Sample {
    pub plane: usize,
    pub row: usize,
    pub element: usize,
}

impl Sample {
    /// The word that is stored there.
    pub fn word(&self, frame: &Frame, luma: &[u16], chroma: &[u16]) -> u16 {
        match self.plane {
            0 => luma[self.row * frame.luma_stride + self.element],
            _ => chroma[self.row * frame.chroma_stride + self.element],
        }
    }
}

fn of_plane(plane: usize, rows: usize, elements: usize) -> impl Iterator<Item = Sample> {
    (0..rows).flat_map(move |row| {
        (0..elements).map(move |element| Sample {
            plane,
            row,
            element,
        })
    })
}

/// "luma row by row, then chroma element by element". The frame is one that is not refused.
pub fn in_order(settings: &Settings, frame: &Frame) -> impl Iterator<Item = Sample> {
    let rows = chroma_rows(settings, frame.height) as usize;
    let elements = chroma_elements(settings, frame.width) as usize;
    of_plane(0, frame.height, frame.width).chain(of_plane(1, rows, elements))
}

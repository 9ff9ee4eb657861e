//! Where the visible samples of both planes stand.
use super::buffers::PIXELS;
use super::call::Call;
use crate::reference::chroma_rows;

fn of_plane(plane: &[u16], rows: u128, elements: u128, stride: usize) -> Vec<usize> {
    let starts = (0..rows as usize).map(|row| row.saturating_mul(stride));
    let row = |start: usize| (0..elements as usize).map(move |k| start.saturating_add(k));
    let is_held = |place: &usize| *place < plane.len();
    starts.flat_map(row).filter(is_held).collect()
}

/// The indices of all visible samples of luma and of chroma, row by row; none where the frame is too large.
pub fn places(call: &Call) -> [Vec<usize>; 2] {
    let Call {
        settings, frame, ..
    } = call;
    if frame.width.saturating_mul(frame.height) > PIXELS {
        return [Vec::new(), Vec::new()];
    }
    let rows = [frame.height as u128, chroma_rows(settings, frame.height)];
    let [_, width, elements] = frame.covered(settings);
    [
        of_plane(&call.luma, rows[0], width, frame.luma_stride),
        of_plane(&call.chroma, rows[1], elements, frame.chroma_stride),
    ]
}

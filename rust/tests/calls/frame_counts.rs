//! How often a call was taken, with which kind of window, and which window was refused why.
use super::call::Call;
use super::counts::{refused, Counts};
use crate::reference::{pixel_elements, Frame, Refusal, Settings};

const TAKEN: &str = "taken";
const REFUSED: &str = "refused";
const WHOLE: &str = "whole frame";
const FAR: &str = "window, far from the first pixel";
const EDGES: [&str; 5] = [
    "window, at no edge",
    "window, at the left edge",
    "window, at the right edge",
    "window, at the top edge",
    "window, at the bottom edge",
];
const BY_WINDOW: [&str; 6] = [
    "refusal 12, first column over",
    "refusal 12, first row over",
    "refusal 12, source rows over",
    "refusal 12, sum cut to 64 bits",
    "refusal 12, one row too far",
    "refusal 12, no source rows",
];
const BY_STRIDE: [&str; 2] = [
    "refusal 8, stride one short",
    "refusal 8, stride for the width",
];
const BY_LENGTH: [&str; 2] = [
    "refusal 9, source of height rows",
    "refusal 9, source to the last row",
];

fn corner(subsampling: u32, column: usize, row: usize) -> String {
    let (column, row) = (column % 2, row % 2);
    format!("window, subsampling {subsampling}, corner {column} {row}")
}

fn layout(channels: u32) -> String {
    format!("window, channels {channels}")
}

fn is_whole(frame: &Frame) -> bool {
    frame.first_column == 0 && frame.first_row == 0 && frame.source_rows == frame.height
}

fn count_window(settings: &Settings, frame: &Frame, counts: &mut Counts) {
    let covered = frame.covered(settings)[0];
    let after = frame.source_stride as u128 - covered;
    let is_at = [
        frame.first_column == 0,
        after < pixel_elements(settings),
        frame.first_row == 0,
        frame.first_row + frame.height == frame.source_rows,
    ];
    let [no_edge, edges @ ..] = EDGES;
    if is_at == [false; 4] {
        counts.add(no_edge);
    }
    for (edge, _) in edges.into_iter().zip(is_at).filter(|&(_, is_at)| is_at) {
        counts.add(edge);
    }
    if frame.first_column > 1_000 || frame.first_row > 1_000 {
        counts.add(FAR);
    }
    counts.add(layout(settings.channels));
    counts.add(corner(
        settings.subsampling,
        frame.first_column,
        frame.first_row,
    ));
}

fn count_window_refused(frame: &Frame, counts: &mut Counts) {
    let [column_over, row_over, rows_over, sum_cut, one_too_far, no_rows] = BY_WINDOW;
    let end = frame.first_row.checked_add(frame.height);
    counts.add(match frame {
        _ if end.is_none() => sum_cut,
        _ if frame.first_column > 16_384 => column_over,
        _ if frame.first_row > 16_384 => row_over,
        _ if frame.source_rows > 16_384 => rows_over,
        _ if frame.source_rows == 0 => no_rows,
        _ if end == Some(frame.source_rows + 1) => one_too_far,
        _ => "refusal 12, rows too far",
    });
}

fn count_stride_refused(settings: &Settings, frame: &Frame, counts: &mut Counts) {
    let stride = frame.source_stride as u128;
    let of_width = frame.width as u128 * pixel_elements(settings);
    let [one_short, for_width] = BY_STRIDE;
    match stride {
        _ if frame.first_column == 0 => {}
        _ if stride + 1 == frame.covered(settings)[0] => counts.add(one_short),
        _ if stride == of_width => counts.add(for_width),
        _ => {}
    }
}

fn count_length_refused(call: &Call, frames: usize, counts: &mut Counts) {
    let frame = &call.frame;
    let end = frame.first_row + frame.height;
    let is_of = |rows| {
        rows != frame.source_rows && call.source.len() == frames * frame.source_stride * rows
    };
    let [of_height, to_last] = BY_LENGTH;
    if is_of(frame.height) {
        counts.add(of_height);
    } else if is_of(end) {
        counts.add(to_last);
    }
}

/// Counts a call of so many frames.
pub fn count(call: &Call, frames: usize, refusal: Option<Refusal>, counts: &mut Counts) {
    let Call {
        settings, frame, ..
    } = call;
    counts.add(refusal.map_or(TAKEN, |_| REFUSED));
    match refusal.map(|refusal| refusal.number) {
        None if is_whole(frame) => counts.add(WHOLE),
        None => count_window(settings, frame, counts),
        Some(8) => count_stride_refused(settings, frame, counts),
        Some(9) => count_length_refused(call, frames, counts),
        Some(12) => count_window_refused(frame, counts),
        _ => {}
    }
}

/// That there were many calls of each kind.
pub fn assert_met(counts: &Counts) {
    let subsamplings = 0..3;
    let corners = subsamplings.flat_map(|s| (0..4).map(move |at| corner(s, at / 2, at)));
    counts.assert_at_least(20_000, &[TAKEN, REFUSED]);
    counts.assert_at_least(8_000, &[WHOLE]);
    counts.assert_at_least(2_000, &[0, 1, 2, 3].map(layout));
    counts.assert_at_least(2_000, &EDGES);
    counts.assert_at_least(600, &corners.collect::<Vec<_>>());
    counts.assert_at_least(2_000, &[refused(12)]);
    counts.assert_at_least(200, &BY_WINDOW);
    counts.assert_at_least(20, &BY_STRIDE);
    counts.assert_at_least(10, &BY_LENGTH);
    counts.assert_at_least(20, &[FAR]);
}

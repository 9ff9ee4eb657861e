//! Frames drawn: sizes and strides, sound and spoiled.
use super::random::Random;
use super::windows::Window;
use crate::reference::{pixel_elements, Frame, Settings};

/// Sizes that are refused; 2^32 + 3 would be 3 if it were cut to 32 bits.
const SIZES: [usize; 7] = [0, 0, 16_385, 65_536, 65_537, (1 << 32) + 3, usize::MAX];

/// Strides at and around the limits. Which of them are refused depends on the row.
const STRIDES: [usize; 7] = [0, 1, 16_384, 16_385, 65_536, 65_537, usize::MAX];

/// Width and height: mostly small, at times one of them 16,384.
pub fn sizes(random: &mut Random) -> [usize; 2] {
    let long = match random.below(500) {
        0..=1 => 16_384,
        2..=80 => 1 + random.below(40),
        _ => 1 + random.below(9),
    };
    let short = match long {
        0..=40 => 1 + random.below(9),
        _ => 1 + random.below(2),
    };
    match random.below(2) {
        0 => [long, short],
        _ => [short, long],
    }
}

pub fn spoil_size(random: &mut Random, sizes: &mut [usize; 2]) {
    let size = random.pick(&SIZES);
    let side = random.below(2);
    if size > 40 {
        // The other side is kept short, so that the buffers stay small.
        sizes[1 - side] = 1 + random.below(2);
    }
    sizes[side] = size;
}

fn padding(random: &mut Random) -> usize {
    match random.below(2) {
        0 => 0,
        _ => 1 + random.below(5),
    }
}

/// A stride for a row of any length, even one that no stride can hold.
fn stride(random: &mut Random, row: u128, rows: usize) -> usize {
    let row = usize::try_from(row).unwrap_or(usize::MAX);
    if rows <= 2 && row <= 65_536 && random.one_in(50) {
        return 65_536;
    }
    row.saturating_add(padding(random)).min(row.max(65_536))
}

/// `of_width` is what the width alone needs.
fn spoiled_stride(random: &mut Random, covered: u128, of_width: u128) -> usize {
    let [covered, of_width] = [covered, of_width].map(|n| usize::try_from(n).unwrap_or(usize::MAX));
    match random.below(10) {
        0..=3 => random.pick(&STRIDES),
        4 => covered.wrapping_add(1 << 32),
        5..=6 if of_width < covered => of_width,
        _ => covered.wrapping_sub(1),
    }
}

/// `spoils` says whether one stride is to be wrong.
pub fn laid_out(
    random: &mut Random,
    settings: &Settings,
    [width, height]: [usize; 2],
    window: Window,
    spoils: bool,
) -> Frame {
    let mut frame = Frame {
        width,
        height,
        source_stride: 0,
        luma_stride: 0,
        chroma_stride: 0,
        first_column: window.first_column,
        first_row: window.first_row,
        source_rows: window.source_rows,
    };
    let covered = frame.covered(settings);
    let [source, luma, chroma] = covered;
    let after = window.columns_after as u128 * pixel_elements(settings);
    let mut strides = [
        stride(random, source + after, frame.source_rows),
        stride(random, luma, height),
        stride(random, chroma, height),
    ];
    if spoils {
        let of_width = [width as u128 * pixel_elements(settings), luma, chroma];
        let which = random.below(3);
        strides[which] = spoiled_stride(random, covered[which], of_width[which]);
    }
    [frame.source_stride, frame.luma_stride, frame.chroma_stride] = strides;
    frame
}

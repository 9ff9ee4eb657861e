//! Windows drawn: what of a source lies around a frame, sound and spoiled.
use super::random::Random;
use crate::reference::{pixel_elements, Settings};

const MOST: usize = 16_384;
const LONGEST_STRIDE: usize = 65_536;

/// Numbers that are refused; 2^32 + 3 would be 3 if it were cut to 32 bits.
const TOO_LARGE: [usize; 6] = [16_385, 65_536, 65_537, (1 << 32) + 3, 1 << 63, usize::MAX];

#[derive(Clone, Copy)]
pub struct Window {
    pub first_column: usize,
    pub columns_after: usize,
    pub first_row: usize,
    pub source_rows: usize,
}

fn whole(height: usize) -> Window {
    Window {
        first_column: 0,
        columns_after: 0,
        first_row: 0,
        source_rows: height,
    }
}

/// Columns or rows on one side of a window.
fn margin(random: &mut Random, room: usize) -> usize {
    room.min(random.below(4))
}

fn around(random: &mut Random, columns: usize, rows: usize, height: usize) -> Window {
    let first_column = margin(random, columns);
    let first_row = margin(random, rows);
    let rows_after = margin(random, rows - first_row);
    Window {
        first_column,
        columns_after: margin(random, columns - first_column),
        first_row,
        source_rows: height.saturating_add(first_row + rows_after),
    }
}

/// A whole frame or, a little more often, a window: on all sides of the source, and at times as far from its first pixel as can be.
pub fn draw(random: &mut Random, settings: &Settings, [width, height]: [usize; 2]) -> Window {
    let pixels = LONGEST_STRIDE / pixel_elements(settings) as usize;
    let columns = MOST.min(pixels.saturating_sub(width));
    let rows = MOST.saturating_sub(height);
    match random.below(100) {
        0..=44 => whole(height),
        // Few rows or short ones, so that the source stays small.
        45..=46 if height <= 2 => Window {
            first_column: columns,
            ..whole(height)
        },
        47..=49 if width <= 2 => Window {
            first_row: rows,
            ..whole(height.saturating_add(rows))
        },
        _ => around(random, columns, rows, height),
    }
}

/// Makes one number too large, or the window end below the source.
pub fn spoil(random: &mut Random, height: usize, window: &mut Window) {
    let number = random.pick(&TOO_LARGE);
    let end = window.first_row.saturating_add(height);
    match random.below(9) {
        0 => window.first_column = number,
        1 => window.first_row = number,
        2 => window.source_rows = number,
        // The sum of first row and height is cut to 0, 1 or 2.
        3 => window.first_row = 0_usize.wrapping_sub(height).wrapping_add(random.below(3)),
        4 => window.source_rows = 0,
        5 => {
            window.first_row = 1 + random.below(3);
            window.source_rows = height;
        }
        6 => window.first_row = MOST,
        7 => window.source_rows = end.saturating_sub(1),
        _ => window.first_row = (window.source_rows + 1).saturating_sub(height),
    }
}

//! How often each combination was compared at each precision and each small size.
use crate::settings::Settings;

const PRECISIONS: usize = 13;
const COMBINATIONS: usize = 4 * 3 * 2 * 2 * 2 * 7 * 2;

pub struct Cells {
    small_sizes: usize,
    counts: Vec<u32>,
}

/// The number of a choice of channels, subsampling, order, packing, byte order, depth and range.
fn combination(settings: &Settings) -> usize {
    let digits = [
        (settings.channels, 4),
        (settings.subsampling, 3),
        (settings.order, 2),
        (settings.packing, 2),
        (settings.byte_order, 2),
        (settings.depth - 10, 7),
        (settings.range, 2),
    ];
    let place = |number, (digit, values)| number * values + digit as usize;
    digits.into_iter().fold(0, place)
}

impl Cells {
    pub fn new(small_sizes: usize) -> Cells {
        Cells {
            small_sizes,
            counts: vec![0; PRECISIONS * COMBINATIONS * small_sizes],
        }
    }

    /// Counts a frame where its size is small; the large sizes have the numbers after the small ones.
    pub fn count(&mut self, settings: &Settings, size: usize) {
        if size < self.small_sizes {
            let precision = settings.precision as usize - 1;
            let line = precision * COMBINATIONS + combination(settings);
            self.counts[line * self.small_sizes + size] += 1;
        }
    }

    pub fn print(&self) {
        let fewest = self.counts.iter().min().unwrap_or(&0);
        println!(
            "combinations {COMBINATIONS}, precisions {PRECISIONS}, small sizes {}: each three together in at least {fewest} frames",
            self.small_sizes
        );
    }
}

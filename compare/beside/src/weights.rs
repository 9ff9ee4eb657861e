//! The nine weights: those that the library settles beside those that the published functions work out.
use crate::matrices::{self, Matrix};
use crate::ours;
use crate::random::Random;
use crate::settings::Settings;
use crate::theirs;
use published::{get_forward_transform, get_yuv_range, ToIntegerTransform};

const DRAWN_PAIRS: usize = 1_000_000;

/// The crate's weights: luma's of red, green and blue, then Cb's, then Cr's.
pub fn published(settings: &Settings) -> [i32; 9] {
    let range = get_yuv_range(settings.depth, theirs::range(settings));
    let bias = theirs::matrix(settings).get_kr_kb();
    let m = u32::from(settings.m());
    let floats = get_forward_transform(m, range.range_y, range.range_uv, bias.kr, bias.kb);
    let w = floats.to_integers(settings.precision);
    [
        w.yr, w.yg, w.yb, w.cb_r, w.cb_g, w.cb_b, w.cr_r, w.cr_g, w.cr_b,
    ]
}

#[derive(Default)]
struct Tally {
    equal: usize,
    refused: usize,
    different: Vec<String>,
    smallest: i32,
    largest: i32,
}

impl Tally {
    fn count(&mut self, settings: &Settings) {
        let settled = ours::settle(settings);
        if settled.refusal != 0 {
            self.refused += 1;
            return;
        }
        let theirs = published(settings);
        self.smallest = theirs.into_iter().fold(self.smallest, i32::min);
        self.largest = theirs.into_iter().fold(self.largest, i32::max);
        if settled.weights == theirs {
            self.equal += 1;
        } else {
            self.different.push(format!(
                "{settings}: crate {theirs:?}, ours {:?}",
                settled.weights
            ));
        }
    }

    fn print(&self, name: &str) {
        println!(
            "weights of {name}: {} settings equal, {} refused by ours, {} different; from {} to {}",
            self.equal,
            self.refused,
            self.different.len(),
            self.smallest,
            self.largest
        );
        for line in self.different.iter().take(10) {
            println!("  UNEXPECTED {line}");
        }
    }
}

fn at(precision: u32, depth: u32, range: u32, matrix: Matrix) -> Settings {
    let settings = Settings {
        precision,
        depth,
        range,
        ..Settings::J
    };
    matrices::with(&settings, matrix)
}

/// Whether all are equal.
pub fn run(random: &mut Random) -> bool {
    let mut named = Tally::default();
    for matrix in matrices::named() {
        for precision in 1..=13 {
            for depth in 10..=16 {
                for range in 0..2 {
                    named.count(&at(precision, depth, range, matrix));
                }
            }
        }
    }
    named.print("the named matrices");
    let mut custom = Tally::default();
    for _ in 0..DRAWN_PAIRS {
        let precision = 1 + random.below(13) as u32;
        let depth = 10 + random.below(7) as u32;
        let range = random.below(2) as u32;
        custom.count(&at(precision, depth, range, matrices::drawn(random)));
    }
    custom.print("drawn custom pairs");
    named.different.is_empty() && custom.different.is_empty()
}

//! The crate at its own precision, 15, beside the library at 13, in what the crate offers of order, packing and byte order.
mod line;
mod narrow;
mod overflow;
mod shares;

use crate::random::Random;
use crate::settings::Settings;
use line::Line;

const SEED: u64 = 15;
const OWN_PRECISION: u32 = 15;
const GREATEST_PRECISION: u32 = 13;

/// What the crate offers of order, packing and byte order, at the library's greatest precision.
fn offered(depth: u32, range: u32) -> Settings {
    Settings {
        depth,
        range,
        packing: 0,
        precision: GREATEST_PRECISION,
        ..Settings::J
    }
}

fn at_fifteen(settings: &Settings) -> Settings {
    Settings {
        precision: OWN_PRECISION,
        ..*settings
    }
}

fn print_table() -> Vec<Line> {
    println!("The crate's planes at P = 15 and the library's at P = 13: five matrices, three subsamplings, Rgb and Rgba");
    println!();
    println!("| depth | range | luma codes that differ | largest | chroma codes that differ | largest | random frames accepted by check | extreme frames accepted by check | refused by ours |");
    println!("|---|---|---|---|---|---|---|---|---|");
    let mut random = Random::new(SEED);
    let mut lines = Vec::new();
    for depth in 10..=16 {
        for range in 0..2 {
            let line = Line::worked_out(depth, range, &mut random);
            line.print();
            lines.push(line);
        }
    }
    println!();
    lines
}

/// Whether every frame that check does not accept holds a pixel whose sum or code is outside.
pub fn run() -> bool {
    let lines = print_table();
    let unexplained: usize = lines.iter().map(Line::print_not_accepted).sum();
    println!("frames not accepted without such a pixel: {unexplained}");
    println!();
    overflow::run();
    println!();
    narrow::run();
    unexplained == 0
}

//! Settings drawn, sound and spoiled.
use super::pairs;
use super::random::Random;
use crate::reference::Settings;

const CUSTOM: u32 = 5;

/// Numbers that name no case of any enumeration; 256 and 65536 would be 0 if they were cut to 8 or 16 bits.
const UNNAMED: [u32; 8] = [6, 7, 255, 256, 257, 65_536, 1 << 31, u32::MAX];
const DEPTHS: [u32; 11] = [0, 1, 7, 8, 9, 17, 31, 32, 33, 266, u32::MAX];
const PRECISIONS: [u32; 8] = [0, 14, 15, 31, 32, 33, 269, u32::MAX];

/// Passes rules 1 and 2; mostly rules 3 to 5 as well.
pub fn usable(random: &mut Random) -> Settings {
    let precision = match random.below(2) {
        0 => 13,
        _ => 1 + random.below(13) as u32,
    };
    let matrix = random.below(6) as u32;
    // A named matrix must not look at the pair.
    let (kr, kb) = match matrix {
        CUSTOM => pairs::usable(random),
        _ => (pairs::any_float(random), pairs::any_float(random)),
    };
    Settings {
        depth: 10 + random.below(7) as u32,
        precision,
        matrix,
        kr,
        kb,
        range: random.below(2) as u32,
        subsampling: random.below(3) as u32,
        order: random.below(2) as u32,
        packing: random.below(2) as u32,
        byte_order: random.below(2) as u32,
        channels: random.below(4) as u32,
    }
}

/// All 910 settings with a named matrix; what else they have is drawn.
pub fn every_named(random: &mut Random) -> Vec<Settings> {
    let mut all = Vec::new();
    for matrix in 0..5 {
        for range in 0..2 {
            for depth in 10..=16 {
                for precision in 1..=13 {
                    all.push(Settings {
                        depth,
                        precision,
                        matrix,
                        range,
                        ..usable(random)
                    });
                }
            }
        }
    }
    all
}

fn unname(random: &mut Random, settings: &mut Settings) {
    let (number, end) = match random.below(7) {
        0 => (&mut settings.matrix, 6),
        1 => (&mut settings.range, 2),
        2 => (&mut settings.subsampling, 3),
        3 => (&mut settings.order, 2),
        4 => (&mut settings.packing, 2),
        5 => (&mut settings.byte_order, 2),
        _ => (&mut settings.channels, 4),
    };
    *number = match random.below(2) {
        0 => end,
        _ => random.pick(&UNNAMED),
    };
}

pub fn spoil(random: &mut Random, settings: &mut Settings) {
    match random.below(4) {
        0 => settings.depth = random.pick(&DEPTHS),
        1 => settings.precision = random.pick(&PRECISIONS),
        2 => {
            settings.matrix = CUSTOM;
            (settings.kr, settings.kb) = pairs::spoiled(random);
        }
        _ => unname(random, settings),
    }
}

//! Settings and samples that the library refuses, and what the crate makes of them at the same precision.
use crate::frame::{Frame, Planes};
use crate::ours;
use crate::raw::ConvertedNumbers;
use crate::settings::{Settings, CUSTOM};
use crate::theirs;
use crate::weights;

const PAIRS: [(f32, f32); 13] = [
    (0.25, 0.125),
    (0.0, 0.0),
    (0.25, 0.0),
    (0.0, 0.25),
    (0.5, 0.5),
    (0.75, 0.25),
    (0.6, 0.6),
    (-0.1, 0.5),
    (1.0, 0.5),
    (0.5, 1.0),
    (f32::NAN, 0.1),
    (0.1, f32::NAN),
    (f32::INFINITY, 0.1),
];

const J: Settings = Settings {
    subsampling: 2,
    ..Settings::J
};

/// The library's answer, and the words that the crate stores for one pixel: luma, Cb, Cr.
fn answers(settings: &Settings, pixel: [u16; 3]) -> (ConvertedNumbers, [u16; 3]) {
    let frame = Frame::padded(settings, 1, 1, [0; 3]);
    let mut planes = Planes::filled(1, 2, 0);
    let answer = ours::convert(settings, &frame, &pixel, &mut planes);
    theirs::convert(settings, &frame, &pixel, &mut planes);
    (answer, [planes.luma[0], planes.chroma[0], planes.chroma[1]])
}

fn print_pairs() {
    println!("Custom pairs at 10 bits, full range and P = 13, and a white pixel");
    println!();
    println!("| kr, kb | crate's weights | crate's words of white | ours |");
    println!("|---|---|---|---|");
    for (kr, kb) in PAIRS {
        let settings = Settings {
            matrix: CUSTOM,
            kr,
            kb,
            ..J
        };
        let m = settings.m();
        let (answer, words) = answers(&settings, [m; 3]);
        let weights = weights::published(&settings);
        println!("| {kr}, {kb} | {weights:?} | {words:?} | {answer} |");
    }
}

fn print_codes() {
    println!("A code or a sample above m");
    println!();
    println!("| settings | pixel | crate's words | ours |");
    println!("|---|---|---|---|");
    let smpte240 = |depth: u32, packing: u32| Settings {
        matrix: 3,
        depth,
        packing,
        ..J
    };
    let most = Settings { packing: 0, ..J };
    for (settings, sample) in [
        (smpte240(12, 1), 4095),
        (smpte240(13, 1), 8191),
        (smpte240(13, 0), 8191),
        (J, 1023),
        (J, 1024),
        (most, 1023),
        (most, 1024),
        (most, 65535),
    ] {
        let pixel = [sample; 3];
        let (answer, words) = answers(&settings, pixel);
        println!("| {settings} | {pixel:?} | {words:?} | {answer} |");
    }
}

pub fn run() {
    print_pairs();
    println!();
    print_codes();
}

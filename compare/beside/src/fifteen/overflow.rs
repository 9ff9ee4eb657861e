//! Where the crate's sums at precision 15 leave 32 bits, or its codes leave 0 to m: looked for at black, white and the six colours
//! between, since each sum grows or falls with each sample.
use super::{at_fifteen, offered};
use crate::caught;
use crate::frame::{Frame, Planes};
use crate::matrices;
use crate::settings::{Settings, RANGES};
use crate::theirs;
use crate::weights;
use published::get_yuv_range;

type Pixel = [i64; 3];

/// The sums of luma, Cb and Cr before the shift, in 64 bits.
fn sums(settings: &Settings, pixel: Pixel) -> [i64; 3] {
    let range = get_yuv_range(settings.depth, theirs::range(settings));
    let rounding = (1i64 << (settings.precision - 1)) - 1;
    let w = weights::published(settings);
    let sum = |at: usize, bias: u32| {
        let products = (0..3).map(|i| i64::from(w[at + i]) * pixel[i]);
        products.sum::<i64>() + (i64::from(bias) << settings.precision) + rounding
    };
    [
        sum(0, range.bias_y),
        sum(3, range.bias_uv),
        sum(6, range.bias_uv),
    ]
}

fn is_outside(settings: &Settings, sum: i64) -> bool {
    let code = sum >> settings.precision;
    i32::try_from(sum).is_err() || code < 0 || code > i64::from(settings.m())
}

/// Whether a source without padding has a pixel whose sum or code is outside.
pub fn is_met(settings: &Settings, source: &[u16]) -> bool {
    let places = settings.places();
    let mut pixels = source.chunks_exact(settings.channel_count());
    pixels.any(|samples| {
        let pixel = places.map(|place| i64::from(samples[place]));
        let mut list = sums(settings, pixel).into_iter();
        list.any(|sum| is_outside(settings, sum))
    })
}

fn corners(m: i64) -> impl Iterator<Item = Pixel> {
    (0..8).map(move |bits| [bits & 1, bits >> 1 & 1, bits >> 2].map(|bit| bit * m))
}

/// The words that the loops store for a frame of one pixel: luma, Cb, Cr.
fn stored(settings: &Settings, pixel: Pixel) -> Result<[u16; 3], String> {
    let settings = Settings {
        subsampling: 2,
        channels: 0,
        ..*settings
    };
    let frame = Frame::padded(&settings, 1, 1, [0; 3]);
    let mut planes = Planes::filled(1, 2, 0);
    let source = pixel.map(|sample| sample as u16);
    caught::run(|| theirs::convert(&settings, &frame, &source, &mut planes))?;
    Ok([planes.luma[0], planes.chroma[0], planes.chroma[1]])
}

fn print(settings: &Settings, which: usize, pixel: Pixel) {
    let sum = sums(settings, pixel)[which];
    let bits = match i32::try_from(sum) {
        Ok(_) => "fits 32 bits",
        Err(_) => "leaves 32 bits",
    };
    let word = match stored(settings, pixel) {
        Ok(words) => format!("word {}", words[which]),
        Err(message) => format!("panic: {message}"),
    };
    println!(
        "| {} | {} | {} | {} | {pixel:?} | {sum}, {bits} | {} | {word} |",
        settings.depth,
        RANGES[settings.range as usize],
        settings.matrix_name(),
        ["luma", "Cb", "Cr"][which],
        sum >> settings.precision
    );
}

/// Every pixel outside that has equal samples in place of the colour's m, and the last one inside.
fn print_up_to(settings: &Settings, which: usize, corner: Pixel) {
    let m = i64::from(settings.m());
    let scaled = |v: i64| corner.map(|sample| if sample == m { v } else { 0 });
    let is_inside = |v: &i64| !is_outside(settings, sums(settings, scaled(*v))[which]);
    let last_inside = (0..=m).rev().find(is_inside).unwrap_or(0);
    for v in last_inside..=m {
        print(settings, which, scaled(v));
    }
}

pub fn run() {
    println!("Sums of the crate at P = 15 that leave 32 bits, and codes that leave 0 to m, with the last pixel before them");
    println!();
    println!("| depth | range | matrix | sample | pixel | sum | code | stored, most significant, little |");
    println!("|---|---|---|---|---|---|---|---|");
    for depth in 10..=16 {
        for range in 0..2 {
            for matrix in matrices::named() {
                let settings = at_fifteen(&matrices::with(&offered(depth, range), matrix));
                for corner in corners(i64::from(settings.m())) {
                    for which in 0..3 {
                        if is_outside(&settings, sums(&settings, corner)[which]) {
                            print_up_to(&settings, which, corner);
                        }
                    }
                }
            }
        }
    }
}

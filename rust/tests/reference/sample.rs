//! One sample: the code of a pixel, and the mean of a block.
use super::Settings;

/// Red, green and blue.
pub type Pixel = [i128; 3];

/// The sum, the bias times 2^P and 2^(P−1) − 1, "divided by 2^P, rounded down".
pub fn code(settings: &Settings, bias: i128, weights: &[i128; 3], pixel: &Pixel) -> i128 {
    let sum: i128 = weights.iter().zip(pixel).map(|(w, c)| w * c).sum();
    let one = settings.one();
    (sum + bias * one + one / 2 - 1).div_euclid(one)
}

fn mean(channel: &[i128]) -> i128 {
    match *channel {
        [a] => a,
        [a, b] => (a + b + 1) / 2,
        [a, b, c, e] => (a + b + c + e + 2) / 4,
        _ => unreachable!("a block has one, two or four pixels"),
    }
}

/// The mean of each channel.
pub fn averaged(pixels: &[Pixel]) -> Pixel {
    [0, 1, 2].map(|c| mean(&pixels.iter().map(|p| p[c]).collect::<Vec<_>>()))
}

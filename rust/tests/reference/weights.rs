//! The nine weights: in f32, each operation in the order of `get_forward_transform`, times 2^P, rounded.
use super::matrices::pair;
use super::Settings;

/// Weights of red, green and blue in luma, Cb and Cr.
pub type Weights = [[i128; 3]; 3];

/// "kg is 1 − kr, then minus kb".
pub fn rest(kr: f32, kb: f32) -> f32 {
    let without_red = 1.0_f32 - kr;
    without_red - kb
}

fn luma(k: f32, range_y: f32, most: f32) -> f32 {
    let ranged = k * range_y;
    ranged / most
}

/// The weight of a channel in the Cb or Cr of another: `-0.5 * k / (1 - own) * range_uv / most`.
fn other(k: f32, own: f32, range_uv: f32, most: f32) -> f32 {
    let halved = -0.5_f32 * k;
    let under = 1.0_f32 - own;
    let part = halved / under;
    let ranged = part * range_uv;
    ranged / most
}

fn own(range_uv: f32, most: f32) -> f32 {
    let halved = 0.5_f32 * range_uv;
    halved / most
}

/// "the nearest whole number, halves away from zero", which is what `f32::round` does.
pub fn whole(weight: f32, one: f32) -> i128 {
    (weight * one).round() as i128
}

pub fn weights(settings: &Settings) -> Weights {
    let (kr, kb) = pair(settings);
    let kg = rest(kr, kb);
    let most = settings.most() as f32;
    let range_y = settings.range_y() as f32;
    let range_uv = settings.range_uv() as f32;
    let floats = [
        [kr, kg, kb].map(|k| luma(k, range_y, most)),
        [
            other(kr, kb, range_uv, most),
            other(kg, kb, range_uv, most),
            own(range_uv, most),
        ],
        [
            own(range_uv, most),
            other(kg, kr, range_uv, most),
            other(kb, kr, range_uv, most),
        ],
    ];
    let one = settings.one() as f32;
    floats.map(|row| row.map(|weight| whole(weight, one)))
}

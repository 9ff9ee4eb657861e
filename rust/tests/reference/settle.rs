//! Settle: the nine weights, or the first of refusals 1 to 5.
use super::matrices::{pair, row};
use super::sample::code;
use super::weights::{rest, weights, Weights};
use super::Settings;

/// The number over the line of a fraction, and the one under it.
type Fraction = (i128, i128);

/// "Exact weights are its factors": luma's, then chroma's at n = 1.
fn exact_weights(settings: &Settings) -> [[Fraction; 3]; 3] {
    let row = row(settings);
    let most = settings.most();
    let luma = |k: i128| (k * settings.range_y(), 10_000 * most);
    let chroma = |k: i128, own: i128| (k * settings.range_uv(), 2 * (10_000 - own) * most);
    [
        [luma(row.kr), luma(row.kg), luma(row.kb)],
        [
            chroma(-row.kr, row.kb),
            chroma(-row.kg, row.kb),
            chroma(10_000 - row.kb, row.kb),
        ],
        [
            chroma(10_000 - row.kr, row.kr),
            chroma(-row.kg, row.kr),
            chroma(-row.kb, row.kr),
        ],
    ]
}

/// "more than 51/100 from 2^P times its exact fraction".
fn is_off(weight: i128, (over, under): Fraction, one: i128) -> bool {
    100 * (weight * under - one * over).abs() > 51 * under
}

fn some_weight_off(settings: &Settings, weights: &Weights) -> bool {
    let exact = exact_weights(settings);
    let one = settings.one();
    (0..3).any(|i| (0..3).any(|c| is_off(weights[i][c], exact[i][c], one)))
}

fn some_code_outside(settings: &Settings, [y, cb, cr]: &Weights) -> bool {
    let most = settings.most();
    let (bias_y, bias_uv) = (settings.bias_y(), settings.bias_uv());
    let codes = [
        code(settings, bias_y, y, &[most, most, most]),
        code(settings, bias_uv, cb, &[0, 0, most]),
        code(settings, bias_uv, cb, &[most, most, 0]),
        code(settings, bias_uv, cr, &[most, 0, 0]),
        code(settings, bias_uv, cr, &[0, most, most]),
    ];
    codes.iter().any(|c| !(0..=most).contains(c))
}

fn is_positive(kr: f32, kb: f32) -> bool {
    kr > 0.0 && kb > 0.0 && rest(kr, kb) > 0.0
}

pub fn settle(settings: &Settings) -> Result<Weights, u32> {
    if !settings.is_meant() {
        return Err(18);
    }
    if !(10..=16).contains(&settings.depth) {
        return Err(1);
    }
    if !(1..=13).contains(&settings.precision) {
        return Err(2);
    }
    let (kr, kb) = pair(settings);
    if settings.is_custom() && !is_positive(kr, kb) {
        return Err(3);
    }
    let weights = weights(settings);
    if !settings.is_custom() && some_weight_off(settings, &weights) {
        return Err(4);
    }
    if some_code_outside(settings, &weights) {
        return Err(5);
    }
    Ok(weights)
}

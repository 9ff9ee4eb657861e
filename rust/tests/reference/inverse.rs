//! The five weights of the way back: in f32, each operation in the order of `get_inverse_transform`, times 2^P, rounded.
use super::matrices::pair;
use super::weights::{rest, whole};
use super::Settings;

/// Whole numbers, with the names of the crate.
pub struct InverseWeights {
    pub y_coef: i128,
    pub cr_coef: i128,
    pub cb_coef: i128,
    pub g_coeff_1: i128,
    pub g_coeff_2: i128,
}

/// The weight of Cr in red or of Cb in blue: `(2 * (1 - k)) * ratio`.
fn own(k: f32, ratio: f32) -> f32 {
    let without = 1.0_f32 - k;
    let doubled = 2.0_f32 * without;
    doubled * ratio
}

/// What green takes of Cr or of Cb: `(2 * ((1 - k) * k / kg)) * ratio`.
fn green(k: f32, kg: f32, ratio: f32) -> f32 {
    let without = 1.0_f32 - k;
    let over = without * k;
    let part = over / kg;
    let doubled = 2.0_f32 * part;
    doubled * ratio
}

/// Of settings that settle accepts.
pub fn inverse_weights(settings: &Settings) -> InverseWeights {
    let (kr, kb) = pair(settings);
    let kg = rest(kr, kb);
    let most = settings.most() as f32;
    let ratio_uv = most / settings.range_uv() as f32;
    let one = settings.one() as f32;
    InverseWeights {
        y_coef: whole(most / settings.range_y() as f32, one),
        cr_coef: whole(own(kr, ratio_uv), one),
        cb_coef: whole(own(kb, ratio_uv), one),
        g_coeff_1: whole(green(kr, kg, ratio_uv), one),
        g_coeff_2: whole(green(kb, kg, ratio_uv), one),
    }
}

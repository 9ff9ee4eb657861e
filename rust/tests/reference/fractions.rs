//! Exact fractions and the tolerance.
use super::matrices::{row, Row};
use super::sample::Pixel;
use super::Settings;

/// The exact value of a sample, the fraction over/under, and the number of pixels it is made from.
#[derive(Debug, Clone, Copy)]
pub struct Exact {
    pub over: i128,
    pub under: i128,
    pub pixels: usize,
}

/// Kr·SR + Kg·SG + Kb·SB.
fn blend(row: &Row, sums: &Pixel) -> i128 {
    row.kr * sums[0] + row.kg * sums[1] + row.kb * sums[2]
}

/// bias_y + (Kr·R + Kg·G + Kb·B)·range_y / (10000·m).
pub fn exact_luma(settings: &Settings, pixel: &Pixel) -> Exact {
    let under = 10_000 * settings.most();
    let over = settings.bias_y() * under + blend(&row(settings), pixel) * settings.range_y();
    Exact {
        over,
        under,
        pixels: 1,
    }
}

/// bias_uv + (10000·SB − S)·range_uv / (2·(10000 − Kb)·n·m) for Cb, with SR and Kr for Cr.
pub fn exact_chroma(settings: &Settings, block: &[Pixel], is_u: bool) -> Exact {
    let row = row(settings);
    let sums = [0, 1, 2].map(|c| block.iter().map(|p| p[c]).sum());
    let (own, k) = if is_u {
        (sums[2], row.kb)
    } else {
        (sums[0], row.kr)
    };
    let under = 2 * (10_000 - k) * block.len() as i128 * settings.most();
    let difference = 10_000 * own - blend(&row, &sums);
    let over = settings.bias_uv() * under + difference * settings.range_uv();
    Exact {
        over,
        under,
        pixels: block.len(),
    }
}

/// 1/2 + 153·m/(100·2^P), "one half more for chroma of two or four pixels", as the numbers over and under the line.
fn tolerance(settings: &Settings, pixels: usize) -> (i128, i128) {
    let halves = if pixels == 1 { 1 } else { 2 };
    let under = 100 * settings.one();
    (halves * under / 2 + 153 * settings.most(), under)
}

/// "equality is within".
pub fn within(settings: &Settings, exact: &Exact, code: i128) -> bool {
    let (over, under) = tolerance(settings, exact.pixels);
    (code * exact.under - exact.over).abs() * under <= over * exact.under
}

/// The lowest and the highest code within the tolerance, be they codes of this depth or not.
pub fn reach(settings: &Settings, exact: &Exact) -> (i128, i128) {
    let (over, under) = tolerance(settings, exact.pixels);
    let (all, middle, side) = (exact.under * under, exact.over * under, over * exact.under);
    let lowest = -(side - middle).div_euclid(all);
    let highest = (middle + side).div_euclid(all);
    (lowest, highest)
}

//! Custom pairs: sound ones, ones at the edge of rule 3, and floats that are no weights at all.
use super::random::Random;

const SPECIAL: [f32; 30] = [
    f32::NAN,
    -f32::NAN,
    f32::INFINITY,
    f32::NEG_INFINITY,
    0.0,
    -0.0,
    f32::MAX,
    f32::MIN,
    f32::MIN_POSITIVE,
    -f32::MIN_POSITIVE,
    f32::EPSILON,
    1e-45,
    -1e-45,
    1e-40,
    5e-6,
    -0.1,
    -1.0,
    0.1,
    0.25,
    0.299,
    0.114,
    0.499_999_97,
    0.5,
    0.500_000_06,
    0.75,
    0.999_999_94,
    1.0,
    1.000_000_1,
    2.0,
    1e30,
];

/// Kr and Kb above 0 and together below 1.
fn sound(random: &mut Random) -> (f32, f32) {
    let kr = 1 + random.below(9_998);
    let kb = 1 + random.below(9_999 - kr);
    (kr as f32 / 10_000.0, kb as f32 / 10_000.0)
}

/// Kr and Kb together 1, or a few floats off it.
fn around_one(random: &mut Random) -> (f32, f32) {
    let kr = (1 + random.below(9_999)) as f32 / 10_000.0;
    let bits = (1.0 - kr).to_bits();
    (kr, f32::from_bits(bits + random.below(5) as u32 - 2))
}

pub fn any_float(random: &mut Random) -> f32 {
    match random.below(2) {
        0 => random.pick(&SPECIAL),
        _ => f32::from_bits(random.bits()),
    }
}

pub fn usable(random: &mut Random) -> (f32, f32) {
    match random.below(8) {
        0 => around_one(random),
        1 => (5e-6, sound(random).1),
        _ => sound(random),
    }
}

pub fn spoiled(random: &mut Random) -> (f32, f32) {
    let (kr, kb) = sound(random);
    match random.below(4) {
        0 => (any_float(random), kb),
        1 => (kr, any_float(random)),
        2 => (any_float(random), any_float(random)),
        _ => around_one(random),
    }
}

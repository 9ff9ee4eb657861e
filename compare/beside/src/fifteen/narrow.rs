//! Where it matters that the crate casts weights to i16 below 16 bits: where a weight at precision 15 is 32768.
use super::{at_fifteen, offered};
use crate::frame::{Frame, Planes};
use crate::matrices::{self, Matrix};
use crate::ours;
use crate::settings::{Settings, CUSTOM};
use crate::theirs::{self, PlaneChecks, WeightType};
use crate::weights;

const PAIR: Matrix = Matrix {
    number: CUSTOM,
    kr: 0.000005,
    kb: 0.000005,
};
const GREEN: [u16; 3] = [0, 1, 0];

fn luma(settings: &Settings, weight_type: WeightType) -> u16 {
    let frame = Frame::padded(settings, 1, 1, [0; 3]);
    let mut planes = Planes::filled(1, 2, 0);
    let checks = PlaneChecks::LeftOut;
    theirs::convert_with(settings, &frame, &GREEN, &mut planes, weight_type, checks)
        .expect("the loops are built for both types of weights")
        .expect("the source has its exact length");
    planes.luma[0]
}

pub fn run() {
    let greatest = (10..=15)
        .flat_map(|depth| [(depth, 0), (depth, 1)])
        .flat_map(|(depth, range)| {
            let settings = at_fifteen(&offered(depth, range));
            matrices::named()
                .into_iter()
                .map(move |m| matrices::with(&settings, m))
        })
        .flat_map(|settings| weights::published(&settings))
        .map(i32::abs)
        .max();
    println!(
        "The greatest weight of a named matrix at P = 15 below 16 bits: {}; i16 holds it.",
        greatest.unwrap_or(0)
    );
    let settings = matrices::with(&offered(10, 1), PAIR);
    let fifteen = at_fifteen(&settings);
    println!(
        "{fifteen}: weights {:?}; settled by ours at P = 13 with answer {}.",
        weights::published(&fifteen),
        ours::settle(&settings).refusal
    );
    println!(
        "Its luma word of the pixel {GREEN:?}: {} with weights of i16, {} with weights of i32.",
        luma(&fifteen, WeightType::OfTheDepth),
        luma(&fifteen, WeightType::I32)
    );
}

//! The loops at each precision: the same text as many times, each with the functions of `reach.rs` in the same module.
use crate::{YuvBiPlanarImageMut, YuvError, YuvRange, YuvStandardMatrix};

/// Which of the loops, by the numbers that the text gives to each of its names.
#[derive(Clone, Copy)]
pub struct Choice {
    pub precision: u32,
    pub channels: u32,
    pub order: u32,
    pub subsampling: u32,
    pub byte_order: u32,
    pub packing: u32,
    pub depth: u32,
    /// Weights cast to i32 at every depth, where otherwise they are cast to what the crate has for that depth.
    pub is_wide: bool,
}

/// What the loops are called with.
pub struct Call<'a, 'b> {
    pub image: &'a mut YuvBiPlanarImageMut<'b, u16>,
    pub source: &'a [u16],
    pub source_stride: u32,
    pub range: YuvRange,
    pub matrix: YuvStandardMatrix,
}

macro_rules! loops_at {
    ($module:ident, $file:literal) => {
        #[allow(dead_code)]
        mod $module {
            use super::{Call, Choice};
            use crate::shim::num_traits;
            include!(concat!(env!("OUT_DIR"), "/", $file));
            include!("reach.rs");
        }
    };
}

loops_at!(at_1, "loops_1.rs");
loops_at!(at_2, "loops_2.rs");
loops_at!(at_3, "loops_3.rs");
loops_at!(at_4, "loops_4.rs");
loops_at!(at_5, "loops_5.rs");
loops_at!(at_6, "loops_6.rs");
loops_at!(at_7, "loops_7.rs");
loops_at!(at_8, "loops_8.rs");
loops_at!(at_9, "loops_9.rs");
loops_at!(at_10, "loops_10.rs");
loops_at!(at_11, "loops_11.rs");
loops_at!(at_12, "loops_12.rs");
loops_at!(at_13, "loops_13.rs");
loops_at!(at_15, "loops_15.rs");

/// The crate's answer, or None where its loops were not built for the choice.
pub fn convert(choice: Choice, call: Call) -> Option<Result<(), YuvError>> {
    match (choice.precision, choice.is_wide) {
        (1, false) => at_1::reach(choice, call),
        (2, false) => at_2::reach(choice, call),
        (3, false) => at_3::reach(choice, call),
        (4, false) => at_4::reach(choice, call),
        (5, false) => at_5::reach(choice, call),
        (6, false) => at_6::reach(choice, call),
        (7, false) => at_7::reach(choice, call),
        (8, false) => at_8::reach(choice, call),
        (9, false) => at_9::reach(choice, call),
        (10, false) => at_10::reach(choice, call),
        (11, false) => at_11::reach(choice, call),
        (12, false) => at_12::reach(choice, call),
        (13, false) => at_13::reach(choice, call),
        (15, false) => at_15::reach(choice, call),
        (13, true) => at_13::reach_wide(choice, call),
        (15, true) => at_15::reach_wide(choice, call),
        _ => None,
    }
}

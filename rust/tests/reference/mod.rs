//! Document 01 with requests One to Four and Six of document 02, written afresh for the tests alone. It shares nothing with the crate
//! but the records of src/raw.rs, and knows every enumeration by its numbers.
//!
//! Weights are worked out in f32 step by step, everything else in whole numbers of 128 bits.
mod blocks;
mod check;
mod convert;
mod fractions;
mod frame;
mod inverse;
mod matrices;
mod places;
mod refusals;
mod ring;
mod sample;
mod samples;
mod settings;
mod settle;
mod storage;
mod to_rgb;
mod weights;

pub use crate::raw::{Frame, SettingsNumbers as Settings};
pub use check::{check, exact_of};
pub use convert::convert;
pub use fractions::{reach, within};
pub use frame::{chroma_rows, pixel_elements};
pub use inverse::inverse_weights;
pub use refusals::{Refusal, SourcePlace};
pub use ring::{convert_ring, RingEnded};
pub use samples::{in_order, Sample};
pub use settle::settle;
pub use storage::{is_formed, word};
pub use to_rgb::{codes, to_rgb, unheld};

//! Runs the published loops of yuvutils-rs 0.8.3 beside the proved library, in one of five modes:
//!
//! - `compare`: the planes of both at the same precision, 1 to 13;
//! - `fifteen`: the crate at its own precision beside the library at 13;
//! - `replay`: the crate's planes for the cases of standard input;
//! - `refusals`: the crate's checks beside the library's refusals;
//! - `combinations`: what the crate offers.
//!
//! The exit code is 1 where something is not as expected.
mod caught;
mod combinations;
mod compare;
mod coverage;
mod difference;
mod draw;
mod fault;
mod fifteen;
mod frame;
mod image;
mod matrices;
mod ours;
mod random;
#[path = "../../../rust/src/raw.rs"]
#[allow(dead_code)]
mod raw;
mod refusals;
mod replay;
mod settings;
mod theirs;
mod weights;

use std::process::ExitCode;

const MODES: &str = "compare, fifteen, replay, refusals or combinations";

fn main() -> ExitCode {
    let mode = std::env::args().nth(1).unwrap_or_default();
    let is_as_expected = match mode.as_str() {
        "compare" => compare::run(),
        "fifteen" => fifteen::run(),
        "replay" => replay::run(),
        "refusals" => refusals::run(),
        "combinations" => combinations::run(),
        _ => {
            eprintln!("beside MODE, where MODE is {MODES}");
            return ExitCode::from(2);
        }
    };
    if is_as_expected {
        ExitCode::SUCCESS
    } else {
        ExitCode::FAILURE
    }
}

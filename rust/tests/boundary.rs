//! Random calls over the boundary to the proved library, valid and damaged, each held against document 01 written afresh.
//!
//! `cargo test --release boundary -- --nocapture` prints how often each answer was reached.
mod calls;
#[path = "../src/raw.rs"]
#[allow(dead_code)]
mod raw;
mod reference;

//! The time of settling alone.
use crate::rounds::LEAST_ROUNDS;
use crate::settings::{Settings, MATRICES, RANGES};
use crate::{clock, ours};
use std::hint::black_box;

/// How many times a round settles all the settings.
const PASSES: usize = 500;

/// Every depth, named matrix and range at P = 13 that is not refused.
fn accepted() -> Vec<Settings> {
    let mut list = Vec::new();
    for depth in 10..=16 {
        for matrix in 0..MATRICES.len() as u32 {
            for range in 0..RANGES.len() as u32 {
                list.push(Settings {
                    depth,
                    matrix,
                    range,
                    ..Settings::J
                });
            }
        }
    }
    list.retain(|settings| ours::settle(settings).refusal == 0);
    list
}

fn settle_all(list: &[Settings]) {
    for settings in list {
        black_box(ours::settle(black_box(settings)));
    }
}

fn nanoseconds_of_a_call(list: &[Settings]) -> f64 {
    let before = clock::now();
    for _ in 0..PASSES {
        settle_all(list);
    }
    let time = clock::now() - before;
    time.as_secs_f64() * 1e9 / (PASSES * list.len()) as f64
}

pub fn print_time() {
    let list = accepted();
    let best = (0..LEAST_ROUNDS)
        .map(|_| nanoseconds_of_a_call(&list))
        .fold(f64::INFINITY, f64::min);
    println!(
        "
ayresokum_settle: {best:.0} ns for a call, the mean over {} settings in turn, best of {LEAST_ROUNDS} rounds.",
        list.len()
    );
}

//! The cost of a pixel, by the size of a frame and the padding of its rows.
use crate::cases::{self, Case};
use crate::rounds::{self, Times};
use crate::stage::{Candidate, Stage};

fn nanoseconds_of_a_pixel(case: &Case, times: &Times<Candidate>, candidate: Candidate) -> f64 {
    times.milliseconds(candidate) * 1e6 / (case.width * case.height) as f64
}

fn print_row(case: &Case, times: &Times<Candidate>) {
    println!(
        "| {}×{} | {} | {:.2} | {:.2} |",
        case.width,
        case.height,
        case.padding,
        nanoseconds_of_a_pixel(case, times, Candidate::Ours),
        nanoseconds_of_a_pixel(case, times, Candidate::Check),
    );
}

pub fn print() {
    println!(
        "
A pixel at 10 bits, Rgb, 4:2:0, by the size and by the elements of padding in each row:

| size | padding | ours, ns | check, ns |
|---|---|---|---|"
    );
    let cases = cases::scales();
    let best = rounds::best_times::<Stage>(&cases, &[Candidate::Ours, Candidate::Check]);
    for (case, times) in cases.iter().zip(&best) {
        print_row(case, times);
    }
}

//! How long it takes to refuse a frame by its last sample, which is then named, beside converting the same frame.
use crate::cases::{self, Case};
use crate::rounds::{self, Times};
use crate::settings::CHANNELS;
use crate::stage::{Candidate, Stage};

fn print_row(case: &Case, times: &Times<Candidate>) {
    let refused = times.milliseconds(Candidate::Refused);
    let ours = times.milliseconds(Candidate::Ours);
    println!(
        "| {} | {}×{} | {refused:.2} | {ours:.2} | {:.2} |",
        CHANNELS[case.settings.channels as usize],
        case.width,
        case.height,
        refused / ours,
    );
}

pub fn print() {
    println!(
        "
A frame at 10 bits, 4:2:0, that convert refuses by its last colour sample, and the same frame with that sample at most m:

| channels | size | refused, ms | converted, ms | refused/converted |
|---|---|---|---|---|"
    );
    let cases = cases::refused();
    let best = rounds::best_times::<Stage>(&cases, &[Candidate::Refused, Candidate::Ours]);
    for (case, times) in cases.iter().zip(&best) {
        print_row(case, times);
    }
}

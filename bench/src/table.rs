//! The table of all cases, and what its columns are.
use crate::cases::{self, Case};
use crate::rounds::{self, Times, LEAST_ROUNDS, PASSES};
use crate::settings::{CHANNELS, SUBSAMPLINGS};
use crate::stage::{Candidate, Stage};

const TIMED: [Candidate; 4] = [
    Candidate::Copy,
    Candidate::Crate,
    Candidate::Ours,
    Candidate::Check,
];

const HEAD: &str = "\
| depth | channels | subsampling | size | crate, ms | ours, ms | ours/crate | check, ms | check/crate | check/ours | memcpy, ms |
|---|---|---|---|---|---|---|---|---|---|---|";

fn print_row(case: &Case, times: &Times<Candidate>) {
    let theirs = times.milliseconds(Candidate::Crate);
    let ours = times.milliseconds(Candidate::Ours);
    let check = times.milliseconds(Candidate::Check);
    let copy = times.milliseconds(Candidate::Copy);
    println!(
        "| {} | {} | {} | {}×{} | {theirs:.2} | {ours:.2} | {:.2} | {check:.2} | {:.2} | {:.2} | {copy:.2} |",
        case.settings.depth,
        CHANNELS[case.settings.channels as usize],
        SUBSAMPLINGS[case.settings.subsampling as usize],
        case.width,
        case.height,
        ours / theirs,
        check / theirs,
        check / ours,
    );
}

fn print_notes() {
    println!(
        "
Each time is processor time of one thread, the best of {PASSES} passes through all cases, with at least {LEAST_ROUNDS} rounds each; a round
runs all four, in the order opposite to that of the round before. Random samples of the depth, Bt709, limited, P = 13, UV, most significant, little endian, no
padding, buffers touched before. Before the rounds both converters wrote the same planes, and the check accepted them.

- crate: the published loops of yuvutils-rs 0.8.3 with 13 for PRECISION, each setting compiled by itself as in the crate, with the
  release profile, no features and no flags for the processor. The checks of buffers that the published text has are part of it.
  16 bits at 4:2:2 and 4:4:4 are not among the functions that it offers; its private function has them.
- ours: ayresokum_convert whole: it settles, asks every refusal, scans every colour sample for one that is too large, and writes
  both planes. The crate has no scan. At depth 16 no sample can be too large, and ours does not scan either.
- check: ayresokum_check of the planes as converted, accepted. It settles and scans as well.
- memcpy: as many bytes as source, luma and chroma have together. It reads and writes each byte, where a converter reads the source
  and writes the planes."
    );
}

pub fn print() {
    let cases = cases::all();
    let best = rounds::best_times::<Stage>(&cases, &TIMED);
    println!("{HEAD}");
    for (case, times) in cases.iter().zip(&best) {
        print_row(case, times);
    }
    print_notes();
}

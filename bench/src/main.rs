//! Times the published loops of yuvutils-rs 0.8.3 and the proved library on the same frames, and prints tables in markdown: those
//! that the arguments name, or all.
mod cases;
mod clock;
mod machine;
mod refused;
mod rgb;
mod ring;
mod rounds;
mod scales;
mod settle;
mod stage;
mod table;
mod theirs;
mod timed;
mod window;

// Shared with compare/beside; `raw`, the C interface, with the Rust crate.
#[path = "../../compare/beside/src/frame.rs"]
#[allow(dead_code)]
mod frame;
#[path = "../../compare/beside/src/image.rs"]
mod image;
#[path = "../../compare/beside/src/ours.rs"]
#[allow(dead_code)]
mod ours;
#[path = "../../compare/beside/src/random.rs"]
#[allow(dead_code)]
mod random;
#[path = "../../rust/src/raw.rs"]
#[allow(dead_code)]
mod raw;
#[path = "../../compare/beside/src/settings.rs"]
#[allow(dead_code)]
mod settings;

use std::process::ExitCode;

/// What is measured and printed, by name.
const PARTS: [(&str, fn()); 7] = [
    ("table", table::print),
    ("scales", scales::print),
    ("refused", refused::print),
    ("ring", ring::print),
    ("window", window::print),
    ("rgb", rgb::print),
    ("settle", settle::print_time),
];

fn main() -> ExitCode {
    let asked: Vec<String> = std::env::args().skip(1).collect();
    let is_part = |name: &String| PARTS.iter().any(|(part, _)| part == name);
    if let Some(name) = asked.iter().find(|name| !is_part(name)) {
        let parts = PARTS.map(|(part, _)| part).join(", ");
        eprintln!("{name} is none of {parts}");
        return ExitCode::from(2);
    }
    for (part, print) in PARTS {
        if asked.is_empty() || asked.iter().any(|name| name == part) {
            print();
        }
    }
    machine::print_names();
    ExitCode::SUCCESS
}

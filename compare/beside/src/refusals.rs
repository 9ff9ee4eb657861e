//! The checks that the published text contains, beside the library's refusals, at inputs around their limits.
mod buffers;
mod inputs;
mod long;
mod numbers;
mod seen;
mod settings;
mod trial;

pub fn run() -> bool {
    buffers::run();
    println!();
    long::run();
    println!();
    settings::run();
    println!();
    numbers::run();
    true
}

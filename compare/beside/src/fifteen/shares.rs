//! How many codes of two planes differ, and by how much at most.
use crate::settings::Settings;
use std::fmt;

#[derive(Default)]
pub struct Shares {
    codes: usize,
    different: usize,
    largest: u32,
}

impl Shares {
    pub fn add(&mut self, settings: &Settings, ours: &[u16], theirs: &[u16]) {
        self.codes += ours.len();
        for (a, b) in ours.iter().zip(theirs).filter(|(a, b)| a != b) {
            self.different += 1;
            let distance = settings.code(*a).abs_diff(settings.code(*b));
            self.largest = self.largest.max(distance);
        }
    }
}

impl fmt::Display for Shares {
    fn fmt(&self, f: &mut fmt::Formatter) -> fmt::Result {
        let percent = 100.0 * self.different as f64 / self.codes.max(1) as f64;
        write!(f, "{percent:.3} % | {}", self.largest)
    }
}

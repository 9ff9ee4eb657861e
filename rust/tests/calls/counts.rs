//! How often each answer was reached.
use std::collections::BTreeMap;

#[derive(Default)]
pub struct Counts(BTreeMap<String, u64>);

impl Counts {
    pub fn add(&mut self, what: impl Into<String>) {
        self.add_many(what, 1);
    }

    pub fn add_many(&mut self, what: impl Into<String>, n: usize) {
        *self.0.entry(what.into()).or_default() += n as u64;
    }

    fn of(&self, what: &str) -> u64 {
        self.0.get(what).copied().unwrap_or(0)
    }

    pub fn assert_at_least(&self, least: u64, all: &[impl AsRef<str>]) {
        for what in all {
            let (what, count) = (what.as_ref(), self.of(what.as_ref()));
            assert!(count >= least, "{what}: {count}, fewer than {least}");
        }
    }

    pub fn assert_reached(&self, all: &[&str]) {
        self.assert_at_least(1, all);
    }

    pub fn assert_refusals(&self, given: &[u32]) {
        for number in 1..=18 {
            let count = self.of(&refused(number));
            assert_eq!(
                count > 0,
                given.contains(&number),
                "refusal {number}: {count}"
            );
        }
    }

    pub fn print(&self, title: &str) {
        println!("{title}");
        for (what, n) in &self.0 {
            println!("  {what:<32} {n:>9}");
        }
    }
}

pub fn refused(number: u32) -> String {
    format!("refusal {number:>2}")
}

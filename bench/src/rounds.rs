//! The best time of each candidate over many rounds, each of which runs all of them.
use crate::cases::Case;
use crate::clock;
use crate::timed::Timed;
use std::time::Duration;

/// How many times all cases are measured over, so that what else the machine does for a while does not fall on one case alone.
pub const PASSES: usize = 4;
pub const LEAST_ROUNDS: usize = 15;
const LEAST_TIME: Duration = Duration::from_secs(3);

/// The best time of each candidate until now.
pub struct Times<C>(Vec<(C, Duration)>);

impl<C: Copy + PartialEq> Times<C> {
    fn new(candidates: &[C]) -> Times<C> {
        Times(candidates.iter().map(|&c| (c, Duration::MAX)).collect())
    }

    pub fn milliseconds(&self, candidate: C) -> f64 {
        let found = self.0.iter().find(|(timed, _)| *timed == candidate);
        let (_, best) = found.expect("the candidate was timed");
        best.as_secs_f64() * 1e3
    }

    /// The rounds of one pass.
    fn improve(&mut self, stage: &mut impl Timed<Candidate = C>) {
        let mut rounds = 0;
        let start = clock::now();
        while rounds < LEAST_ROUNDS || clock::now() - start < LEAST_TIME {
            for (candidate, best) in &mut self.0 {
                let before = clock::now();
                stage.run(*candidate);
                let time = clock::now() - before;
                *best = time.min(*best);
            }
            // Reversed, so that each converter runs after the other equally often and finds the caches as the other left them.
            self.0.reverse();
            rounds += 1;
        }
    }
}

pub fn best_times<T: Timed>(
    cases: &[Case],
    candidates: &[T::Candidate],
) -> Vec<Times<T::Candidate>> {
    let mut best: Vec<_> = cases.iter().map(|_| Times::new(candidates)).collect();
    for _ in 0..PASSES {
        for (case, times) in cases.iter().zip(&mut best) {
            times.improve(&mut T::new(case));
        }
    }
    best
}

//! Which values of which two factors were met together in one frame.

pub struct Factor {
    pub name: &'static str,
    pub values: usize,
}

pub struct Coverage {
    factors: Vec<Factor>,
    starts: Vec<usize>,
    all: usize,
    is_met: Vec<bool>,
}

impl Coverage {
    pub fn new(factors: Vec<Factor>) -> Coverage {
        let mut starts = Vec::new();
        let mut all = 0;
        for factor in &factors {
            starts.push(all);
            all += factor.values;
        }
        Coverage {
            factors,
            starts,
            all,
            is_met: vec![false; all * all],
        }
    }

    pub fn meet(&mut self, values: &[usize]) {
        for (i, value) in values.iter().enumerate() {
            let line = (self.starts[i] + value) * self.all;
            for (start, other) in self.starts.iter().zip(values).skip(i + 1) {
                self.is_met[line + start + other] = true;
            }
        }
    }

    /// How many pairs of values there are, and the pairs that were not met.
    pub fn missing(&self) -> (usize, Vec<String>) {
        let (mut pairs, mut missing) = (0, Vec::new());
        for (i, a) in self.factors.iter().enumerate() {
            for (j, b) in self.factors.iter().enumerate().skip(i + 1) {
                pairs += a.values * b.values;
                for x in 0..a.values {
                    for y in 0..b.values {
                        if !self.is_met[(self.starts[i] + x) * self.all + self.starts[j] + y] {
                            missing.push(format!("{} {x} with {} {y}", a.name, b.name));
                        }
                    }
                }
            }
        }
        (pairs, missing)
    }
}

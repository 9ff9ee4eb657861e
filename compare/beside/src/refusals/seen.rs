//! How much of a plane was written, and how much of it as it should be.
use std::fmt;

#[derive(Default)]
pub struct Seen {
    visible: usize,
    unwritten: usize,
    wrong: usize,
}

impl Seen {
    /// Two runs began with planes filled differently, so an element that differs between them was not written. The others are held
    /// against the rows as they should be, which have no padding.
    pub fn of(runs: [&[u16]; 2], stride: usize, right: &[u16], width: usize) -> Seen {
        let mut seen = Seen::default();
        for (i, word) in right.iter().enumerate() {
            let at = i / width * stride + i % width;
            let [low, high] = runs.map(|run| run[at]);
            seen.visible += 1;
            seen.unwritten += usize::from(low != high);
            seen.wrong += usize::from(low == high && low != *word);
        }
        seen
    }

    pub fn is_whole(&self) -> bool {
        self.unwritten == 0 && self.wrong == 0
    }
}

impl fmt::Display for Seen {
    fn fmt(&self, f: &mut fmt::Formatter) -> fmt::Result {
        let Seen {
            visible,
            unwritten,
            wrong,
        } = self;
        write!(f, "{unwritten} of {visible} not written")?;
        match wrong {
            0 => Ok(()),
            _ => write!(f, ", {wrong} wrong"),
        }
    }
}

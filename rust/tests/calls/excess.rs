//! Visible samples of a source put above m.
use super::buffers::{colour_places, most};
use super::random::Random;
use crate::reference::{Frame, Settings};

/// Which samples are put above m.
#[derive(Debug, Clone, Copy)]
pub enum Excess {
    One,
    /// Two or all of one pixel.
    OfOnePixel,
    /// Some, anywhere in the frame.
    Several,
    /// One and every one after it in memory.
    Rest,
    All,
}

pub const ALL: [Excess; 5] = [
    Excess::One,
    Excess::OfOnePixel,
    Excess::Several,
    Excess::Rest,
    Excess::All,
];

fn above(random: &mut Random, most: u16) -> u16 {
    match random.below(3) {
        0 => most + 1,
        1 => u16::MAX,
        _ => most + 1 + random.below(usize::from(u16::MAX - most)) as u16,
    }
}

impl Excess {
    /// Those of a frame's samples, which stand in memory pixel by pixel, that are put above m.
    fn chosen(self, random: &mut Random, samples: &[usize]) -> Vec<usize> {
        let first = random.place(samples.len());
        match self {
            Excess::One => vec![samples[first]],
            Excess::OfOnePixel => {
                let pixel = samples[first / 3 * 3..].iter().take(3);
                let left_out = random.below(4);
                let chosen = pixel.enumerate().filter(|&(i, _)| i != left_out);
                chosen.map(|(_, &sample)| sample).collect()
            }
            Excess::Several => {
                let count = 2 + random.below(5);
                (0..count).map(|_| random.pick(samples)).collect()
            }
            Excess::Rest => samples[first..].to_vec(),
            Excess::All => samples.to_vec(),
        }
    }

    /// Puts samples above m and says whether there are any: at 16 bits no word is above m, and some damaged frames have no pixel.
    pub fn make(
        self,
        random: &mut Random,
        settings: &Settings,
        frame: &Frame,
        source: &mut [u16],
    ) -> bool {
        let samples = colour_places(settings, frame, source.len());
        let most = most(settings);
        if samples.is_empty() || most == u16::MAX {
            return false;
        }
        for sample in self.chosen(random, &samples) {
            source[sample] = above(random, most);
        }
        true
    }
}

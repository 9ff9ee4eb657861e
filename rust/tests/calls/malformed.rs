//! Visible words of the planes made such that they are not well formed.
use super::call::Call;
use super::random::Random;
use super::visible;
use crate::reference::{is_formed, Settings};

/// Which words are not well formed.
#[derive(Debug, Clone, Copy)]
pub enum Malformed {
    OneOfLuma,
    OneOfChroma,
    OneOfEach,
    /// Some, anywhere in both planes.
    Several,
    /// Every one of chroma, and none of luma.
    AllOfChroma,
    All,
}

pub const ALL: [Malformed; 6] = [
    Malformed::OneOfLuma,
    Malformed::OneOfChroma,
    Malformed::OneOfEach,
    Malformed::Several,
    Malformed::AllOfChroma,
    Malformed::All,
];

/// The words one bit away from a stored one that are not well formed; at 16 bits there are none.
pub fn one_bit_off(settings: &Settings, stored: u16) -> Vec<u16> {
    let mut words: Vec<u16> = (0..16).map(|bit| stored ^ (1 << bit)).collect();
    words.retain(|&word| !is_formed(settings, word));
    words
}

/// One bit away from the stored word, or any word; the depth is 10 to 15.
fn spoiled(random: &mut Random, settings: &Settings, stored: u16) -> u16 {
    if random.one_in(2) {
        return random.pick(&one_bit_off(settings, stored));
    }
    loop {
        let word = random.word();
        if !is_formed(settings, word) {
            return word;
        }
    }
}

fn one(random: &mut Random, places: &[usize]) -> Vec<usize> {
    vec![places[random.place(places.len())]]
}

fn several(random: &mut Random, places: &[usize]) -> Vec<usize> {
    let count = random.below(4);
    (0..count).map(|_| random.pick(places)).collect()
}

impl Malformed {
    /// Those of the visible places of luma and of chroma whose words are made so.
    fn chosen(self, random: &mut Random, [luma, chroma]: &[Vec<usize>; 2]) -> [Vec<usize>; 2] {
        match self {
            Malformed::OneOfLuma => [one(random, luma), Vec::new()],
            Malformed::OneOfChroma => [Vec::new(), one(random, chroma)],
            Malformed::OneOfEach => [one(random, luma), one(random, chroma)],
            Malformed::Several => [several(random, luma), several(random, chroma)],
            Malformed::AllOfChroma => [Vec::new(), chroma.clone()],
            Malformed::All => [luma.clone(), chroma.clone()],
        }
    }

    /// Spoils words and says whether there are any: at 16 bits every word is well formed, and some damaged calls have no sample or
    /// no depth.
    pub fn make(self, random: &mut Random, call: &mut Call) -> bool {
        let settings = call.settings;
        let places = visible::places(call);
        if !(10..16).contains(&settings.depth) || places.iter().any(Vec::is_empty) {
            return false;
        }
        let [luma, chroma] = self.chosen(random, &places);
        let is_made = !luma.is_empty() || !chroma.is_empty();
        for (plane, chosen) in [(&mut call.luma, luma), (&mut call.chroma, chroma)] {
            for place in chosen {
                plane[place] = spoiled(random, &settings, plane[place]);
            }
        }
        is_made
    }
}

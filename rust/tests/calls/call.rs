//! A call: settings, a frame and its buffers, drawn at random.
use super::damage::{self, Damage};
use super::random::Random;
use super::{buffers, excess};
use crate::reference::{self, Frame, Refusal, Settings};

#[derive(Clone)]
pub struct Call {
    pub settings: Settings,
    pub frame: Frame,
    /// On the way back the RGB buffer.
    pub source: Vec<u16>,
    pub luma: Vec<u16>,
    pub chroma: Vec<u16>,
}

const DAMAGES: [Damage; 6] = [
    Damage::Settings,
    Damage::Size,
    Damage::Window,
    Damage::Stride,
    Damage::Length,
    Damage::Sample,
];

impl Call {
    /// Each part is drawn to fit the parts before it, damaged or not, so that one damage does not bring another.
    pub fn draw(random: &mut Random) -> Call {
        let damages = damage::draw(random, &DAMAGES);
        let has = |damage| damages.contains(&damage);
        let (settings, frame) = damage::layout(random, &damages);
        let mut lengths = buffers::lengths(random, &settings, &frame, 1);
        if has(Damage::Length) {
            buffers::spoil_length(random, &settings, &frame, 1, &mut lengths);
        }
        let mut source = buffers::source(random, &settings, &frame, lengths[0]);
        if has(Damage::Sample) {
            let excess = random.pick(&excess::ALL);
            excess.make(random, &settings, &frame, &mut source);
        }
        let luma = buffers::plane(random, lengths[1]);
        let chroma = buffers::plane(random, lengths[2]);
        Call {
            settings,
            frame,
            source,
            luma,
            chroma,
        }
    }

    /// Converts by document 01.
    pub fn convert(&mut self) -> Result<(), Refusal> {
        reference::convert(
            &self.settings,
            &self.frame,
            &self.source,
            &mut self.luma,
            &mut self.chroma,
        )
    }

    /// Checks by document 01.
    pub fn check(&self) -> Result<Option<reference::Sample>, Refusal> {
        reference::check(
            &self.settings,
            &self.frame,
            &self.source,
            &self.luma,
            &self.chroma,
        )
    }

    /// Turns back to RGB by document 02.
    pub fn turn_back(&mut self) -> Result<(), Refusal> {
        reference::to_rgb(
            &self.settings,
            &self.frame,
            &self.luma,
            &self.chroma,
            &mut self.source,
        )
    }

    /// Asserts that every element of every buffer is the expected one.
    pub fn assert_buffers(&self, expected: &Call, told: impl Fn() -> String) {
        assert!(self.source == expected.source, "source: {}", told());
        assert!(self.luma == expected.luma, "luma: {}", told());
        assert!(self.chroma == expected.chroma, "chroma: {}", told());
    }

    pub fn elements(&self) -> usize {
        self.source.len() + self.luma.len() + self.chroma.len()
    }

    /// The call in words, with its buffers where they are short.
    pub fn told(&self) -> String {
        let lengths = [self.source.len(), self.luma.len(), self.chroma.len()];
        let buffers = match self.elements() {
            0..=200 => format!("{:?} {:?} {:?}", self.source, self.luma, self.chroma),
            _ => String::new(),
        };
        format!(
            "{:?} {:?} lengths {lengths:?} {buffers}",
            self.settings, self.frame
        )
    }
}

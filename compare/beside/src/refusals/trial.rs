//! One input tried with real buffers on both sides.
use super::inputs::{Buffer, Input};
use super::seen::Seen;
use crate::frame::{Frame, Planes};
use crate::ours;
use crate::random::Random;
use crate::raw::ConvertedNumbers;
use crate::settings::Settings;
use crate::theirs;

const SEED: u64 = 9;
/// Buffers have at most so many elements, and frames at most a quarter as many pixels.
const ROOM: u64 = 1 << 20;

pub struct Trial {
    settings: Settings,
    frame: Frame,
    source: Vec<u16>,
    luma_length: usize,
    chroma_length: usize,
    is_small: bool,
}

impl Trial {
    /// The buffer that the input is about as it says, the other two exact, or empty where the frame is large.
    pub fn new(input: &Input) -> Option<Trial> {
        if input.length > ROOM {
            return None;
        }
        let settings = Settings {
            subsampling: input.subsampling,
            ..Settings::J
        };
        let (width, height) = (input.width as usize, input.height as usize);
        let is_small = input.width.saturating_mul(input.height) <= ROOM / 4;
        let mut frame = Frame::padded(&settings, width, height, [0; 3]);
        let (mut source, mut luma, mut chroma) = (0, 0, 0);
        if is_small {
            source = frame.source_length();
            luma = frame.luma_length();
            chroma = frame.chroma_length(&settings);
        }
        let (stride, length) = (input.stride as usize, input.length as usize);
        match input.buffer {
            Buffer::Source => (frame.source_stride, source) = (stride, length),
            Buffer::Luma => (frame.luma_stride, luma) = (stride, length),
            Buffer::Chroma => (frame.chroma_stride, chroma) = (stride, length),
        }
        let mut random = Random::new(SEED);
        let sample = |_| random.word() & settings.m();
        Some(Trial {
            settings,
            frame,
            source: (0..source).map(sample).collect(),
            luma_length: luma,
            chroma_length: chroma,
            is_small,
        })
    }

    fn planes(&self, fill: u16) -> Planes {
        Planes::filled(self.luma_length, self.chroma_length, fill)
    }

    /// The library's answer.
    pub fn ours(&self) -> ConvertedNumbers {
        let mut planes = self.planes(0);
        ours::convert(&self.settings, &self.frame, &self.source, &mut planes)
    }

    /// What the crate's loops do, after its checks of all three buffers.
    pub fn theirs(&self) -> String {
        if !self.is_small {
            return "not run: too large".to_string();
        }
        let (low, high) = match (self.after_loops(7), self.after_loops(8)) {
            (Ok(low), Ok(high)) => (low, high),
            (Err(message), _) | (_, Err(message)) => return message,
        };
        let (frame, tight) = self.without_padding();
        let (luma, chroma) = (self.frame.luma_stride, self.frame.chroma_stride);
        let luma = Seen::of(
            [&low.luma, &high.luma],
            luma,
            &tight.luma,
            frame.luma_stride,
        );
        let chroma = Seen::of(
            [&low.chroma, &high.chroma],
            chroma,
            &tight.chroma,
            frame.chroma_stride,
        );
        if luma.is_whole() && chroma.is_whole() {
            return "whole".to_string();
        }
        format!("luma {luma}, chroma {chroma}")
    }

    fn after_loops(&self, fill: u16) -> Result<Planes, String> {
        let mut planes = self.planes(fill);
        theirs::try_convert(&self.settings, &self.frame, &self.source, &mut planes)?;
        Ok(planes)
    }

    /// The same pixels in buffers of exact lengths and without padding, as the crate's loops convert them.
    fn without_padding(&self) -> (Frame, Planes) {
        let settings = &self.settings;
        let frame = Frame::padded(settings, self.frame.width, self.frame.height, [0; 3]);
        let visible = frame.source_stride;
        let row = |y: usize| &self.source[y * self.frame.source_stride..][..visible];
        let source: Vec<u16> = (0..frame.height).flat_map(row).copied().collect();
        let mut planes = Planes::filled(frame.luma_length(), frame.chroma_length(settings), 0);
        theirs::convert(settings, &frame, &source, &mut planes);
        (frame, planes)
    }
}

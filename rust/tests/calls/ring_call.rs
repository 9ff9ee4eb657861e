//! A call of a ring, drawn at random.
use super::call::Call;
use super::damage::{self, Damage};
use super::random::Random;
use super::{buffers, excess};
use crate::reference::{self, Frame, RingEnded, Settings};

#[derive(Clone)]
pub struct RingCall {
    pub count: usize,
    /// Its buffers hold frame after frame.
    pub call: Call,
}

/// A sample above m is drawn more often, since it alone ends a ring within.
const DAMAGES: [Damage; 9] = [
    Damage::Settings,
    Damage::Size,
    Damage::Window,
    Damage::Stride,
    Damage::Count,
    Damage::Length,
    Damage::Sample,
    Damage::Sample,
    Damage::Sample,
];

/// Counts that are refused. Of those above 66 all but the last would be 1 if they were cut to 8, 16 or 32 bits, or if their
/// product with an even length were cut to 64.
pub const REFUSED_COUNTS: [usize; 8] = [
    0,
    65,
    66,
    257,
    65_537,
    (1 << 32) + 1,
    (1 << 63) + 1,
    usize::MAX,
];

fn draw_count(random: &mut Random, spoils: bool) -> usize {
    if spoils {
        return random.pick(&REFUSED_COUNTS);
    }
    match random.below(8) {
        0 => 1,
        1 => 64,
        2 => 9 + random.below(55),
        _ => 2 + random.below(7),
    }
}

/// How many frames the buffers are drawn for: as many as the count says, or one where it is too large for that.
fn frames_held(count: usize) -> usize {
    match count {
        0..=66 => count,
        _ => 1,
    }
}

/// Makes lengths wrong: those of another number of frames, in all buffers or in one, or as those of a single frame are spoiled.
fn spoil_lengths(
    random: &mut Random,
    settings: &Settings,
    frame: &Frame,
    frames: usize,
    lengths: &mut [usize; 3],
) {
    let others = random.pick(&[frames.saturating_sub(1), frames + 1, 1]);
    let other = buffers::lengths(random, settings, frame, others);
    match random.below(3) {
        0 => *lengths = other,
        1 => {
            let which = random.below(3);
            lengths[which] = other[which];
        }
        _ => buffers::spoil_length(random, settings, frame, frames, lengths),
    }
}

/// The length of one frame's part of the source; 1 for a damaged frame that has none, so that a source can be cut into parts.
fn source_part(settings: &Settings, frame: &Frame) -> usize {
    let length = frame.lengths(settings)[0];
    usize::try_from(length).unwrap_or(usize::MAX).max(1)
}

/// Frame after frame, each drawn by itself. What is left of the length is the beginning of another frame.
fn draw_source(random: &mut Random, settings: &Settings, frame: &Frame, length: usize) -> Vec<u16> {
    let mut source = vec![0; length];
    for part in source.chunks_mut(source_part(settings, frame)) {
        part.copy_from_slice(&buffers::source(random, settings, frame, part.len()));
    }
    source
}

/// Puts samples of one frame or two above m, more often of the first and of the last.
fn spoil_samples(random: &mut Random, settings: &Settings, frame: &Frame, source: &mut [u16]) {
    let mut parts: Vec<&mut [u16]> = source.chunks_mut(source_part(settings, frame)).collect();
    if parts.is_empty() {
        return;
    }
    for _ in 0..1 + random.below(2) {
        let at = random.place(parts.len());
        let excess = random.pick(&excess::ALL);
        excess.make(random, settings, frame, parts[at]);
    }
}

impl RingCall {
    /// Each part is drawn to fit the parts before it, damaged or not, so that one damage does not bring another.
    pub fn draw(random: &mut Random) -> RingCall {
        let damages = damage::draw(random, &DAMAGES);
        let has = |damage| damages.contains(&damage);
        let (settings, frame) = damage::layout(random, &damages);
        let count = draw_count(random, has(Damage::Count));
        let frames = frames_held(count);
        let mut lengths = buffers::lengths(random, &settings, &frame, frames);
        if has(Damage::Length) {
            spoil_lengths(random, &settings, &frame, frames, &mut lengths);
        }
        let mut source = draw_source(random, &settings, &frame, lengths[0]);
        if has(Damage::Sample) {
            spoil_samples(random, &settings, &frame, &mut source);
        }
        let luma = buffers::plane(random, lengths[1]);
        let chroma = buffers::plane(random, lengths[2]);
        let call = Call {
            settings,
            frame,
            source,
            luma,
            chroma,
        };
        RingCall { count, call }
    }

    /// Converts by document 02.
    pub fn convert(&mut self) -> Result<(), RingEnded> {
        let call = &mut self.call;
        reference::convert_ring(
            &call.settings,
            &call.frame,
            self.count,
            &call.source,
            &mut call.luma,
            &mut call.chroma,
        )
    }

    /// Whether every buffer is exactly so many frames long.
    pub fn holds(&self, frames: usize) -> bool {
        let Call {
            source,
            luma,
            chroma,
            ..
        } = &self.call;
        let of_frame = self.call.frame.lengths(&self.call.settings);
        let lengths = [source, luma, chroma].map(|buffer| buffer.len() as u128);
        lengths == of_frame.map(|length| length.saturating_mul(frames as u128))
    }

    pub fn told(&self) -> String {
        format!("count {} {}", self.count, self.call.told())
    }
}

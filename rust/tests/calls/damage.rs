//! What is wrong with a drawn call.
use super::random::Random;
use super::{frames, settings, windows};
use crate::reference::{Frame, Settings};

#[derive(Clone, Copy, PartialEq)]
pub enum Damage {
    Settings,
    Size,
    Window,
    Stride,
    /// Of a ring alone.
    Count,
    Length,
    /// Of the source, or on the way back of a plane.
    Sample,
}

/// Half of the calls are sound. The others have one to three of these damages, so that refusals meet and their order shows.
pub fn draw(random: &mut Random, of: &[Damage]) -> Vec<Damage> {
    let count = match random.below(10) {
        0..=4 => 0,
        5..=7 => 1,
        8 => 2,
        _ => 3,
    };
    (0..count).map(|_| random.pick(of)).collect()
}

/// Settings and a frame with the damages that concern them. The frame fits the settings, damaged or not.
pub fn layout(random: &mut Random, damages: &[Damage]) -> (Settings, Frame) {
    let mut settings = settings::usable(random);
    for _ in damages.iter().filter(|&&d| d == Damage::Settings) {
        settings::spoil(random, &mut settings);
    }
    let mut sizes = frames::sizes(random);
    if damages.contains(&Damage::Size) {
        frames::spoil_size(random, &mut sizes);
    }
    let mut window = windows::draw(random, &settings, sizes);
    if damages.contains(&Damage::Window) {
        windows::spoil(random, sizes[1], &mut window);
    }
    let spoils_stride = damages.contains(&Damage::Stride);
    let frame = frames::laid_out(random, &settings, sizes, window, spoils_stride);
    (settings, frame)
}

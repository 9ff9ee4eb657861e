//! Sources of frames.
use crate::frame::Frame;
use crate::random::Random;
use crate::settings::Settings;

/// How the colour samples of a source are made.
#[derive(Clone, Copy, Debug)]
pub enum Samples {
    /// Each of red, green and blue is 0 or m, the same in every pixel.
    Flat([bool; 3]),
    /// Anything from 0 to m.
    Any,
    /// 0 or m.
    Ends,
    /// Up to 3 away from 0 or from m.
    NearEnds,
}

/// Black, white, and each single channel at m; then its complement.
pub const FLAT: [Samples; 8] = [
    Samples::Flat([false, false, false]),
    Samples::Flat([true, true, true]),
    Samples::Flat([true, false, false]),
    Samples::Flat([false, true, false]),
    Samples::Flat([false, false, true]),
    Samples::Flat([false, true, true]),
    Samples::Flat([true, false, true]),
    Samples::Flat([true, true, false]),
];

/// A quarter of the frames is flat and a half is drawn from the whole range.
pub fn samples(random: &mut Random) -> Samples {
    match random.below(8) {
        0 | 1 => random.one_of(&FLAT),
        2 => Samples::Ends,
        3 => Samples::NearEnds,
        _ => Samples::Any,
    }
}

fn sample(samples: Samples, colour: usize, m: u16, random: &mut Random) -> u16 {
    let draw = random.next();
    let end = if draw & 1 == 0 { 0 } else { m };
    match samples {
        Samples::Flat(high) => [0, m][usize::from(high[colour])],
        Samples::Any => (draw >> 8) as u16 & m,
        Samples::Ends => end,
        Samples::NearEnds => end.abs_diff((draw >> 8) as u16 & 3),
    }
}

/// A source with any words in its padding and in alpha, which are never read.
pub fn source(
    settings: &Settings,
    frame: &Frame,
    samples: Samples,
    random: &mut Random,
) -> Vec<u16> {
    let mut source = random.words(frame.source_length());
    let (count, places, m) = (settings.channel_count(), settings.places(), settings.m());
    for row in source.chunks_exact_mut(frame.source_stride) {
        for pixel in row[..frame.width * count].chunks_exact_mut(count) {
            for (colour, place) in places.into_iter().enumerate() {
                pixel[place] = sample(samples, colour, m, random);
            }
        }
    }
    source
}

//! A call of the way back, drawn at random. The RGB buffer takes the source's place.
use super::call::Call;
use super::damage::{self, Damage};
use super::random::Random;
use super::{buffers, malformed, visible};
use crate::reference::{word, Settings};

const DAMAGES: [Damage; 6] = [
    Damage::Settings,
    Damage::Size,
    Damage::Window,
    Damage::Stride,
    Damage::Length,
    Damage::Sample,
];

/// Which codes a plane has.
#[derive(Clone, Copy)]
enum Manner {
    Extreme,
    NearExtreme,
    /// Around black of limited range.
    NearBlack,
    /// Around the chroma of grey.
    NearGrey,
    Any,
}

const MANNERS: [Manner; 5] = [
    Manner::Extreme,
    Manner::NearExtreme,
    Manner::NearBlack,
    Manner::NearGrey,
    Manner::Any,
];

fn code(random: &mut Random, settings: &Settings, manner: Manner) -> i128 {
    let most = settings.most();
    match manner {
        Manner::Extreme => random.pick(&[0, most]),
        Manner::NearExtreme => random.pick(&[0, 1, 2, most - 2, most - 1, most]),
        Manner::NearBlack => (16 << (settings.depth - 8)) + random.below(9) as i128 - 6,
        Manner::NearGrey => settings.bias_uv() + random.below(9) as i128 - 4,
        Manner::Any => random.below(most as usize + 1) as i128,
    }
}

/// Well-formed words at these places, where the depth has any.
fn fill(random: &mut Random, settings: &Settings, plane: &mut [u16], places: &[usize]) {
    if !(10..=16).contains(&settings.depth) {
        return;
    }
    let manner = random.pick(&MANNERS);
    for &place in places {
        plane[place] = word(settings, code(random, settings, manner));
    }
}

/// Both planes as a picture is converted to them, where nothing is refused.
fn record(random: &mut Random, call: &mut Call) {
    let mut recorded = Call {
        source: buffers::source(random, &call.settings, &call.frame, call.source.len()),
        ..call.clone()
    };
    if recorded.convert().is_ok() {
        (call.luma, call.chroma) = (recorded.luma, recorded.chroma);
    }
}

/// Each part is drawn to fit the parts before it, damaged or not, so that one damage does not bring another.
pub fn draw(random: &mut Random) -> Call {
    let damages = damage::draw(random, &DAMAGES);
    let has = |damage| damages.contains(&damage);
    let (settings, frame) = damage::layout(random, &damages);
    let mut lengths = buffers::lengths(random, &settings, &frame, 1);
    if has(Damage::Length) {
        buffers::spoil_length(random, &settings, &frame, 1, &mut lengths);
    }
    // Any words, which stay in padding and outside the window.
    let [source, luma, chroma] = lengths.map(|length| buffers::plane(random, length));
    let mut call = Call {
        settings,
        frame,
        source,
        luma,
        chroma,
    };
    let [luma, chroma] = visible::places(&call);
    fill(random, &settings, &mut call.luma, &luma);
    fill(random, &settings, &mut call.chroma, &chroma);
    if random.one_in(3) {
        record(random, &mut call);
    }
    if has(Damage::Sample) {
        let malformed = random.pick(&malformed::ALL);
        malformed.make(random, &mut call);
    }
    call
}

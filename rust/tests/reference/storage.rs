//! How a code is stored.
use super::Settings;

fn exchanged(settings: &Settings, word: u16) -> u16 {
    match settings.byte_order {
        0 => word.rotate_left(8),
        _ => word,
    }
}

/// 2^(16−d) for most-significant packing, 1 for least-significant.
fn factor(settings: &Settings) -> i128 {
    match settings.packing {
        0 => 1 << (16 - settings.depth),
        _ => 1,
    }
}

/// The word of a code from 0 to m.
pub fn word(settings: &Settings, code: i128) -> u16 {
    let packed = code * factor(settings);
    exchanged(settings, u16::try_from(packed).unwrap())
}

/// The code of a well-formed word.
pub fn read(settings: &Settings, word: u16) -> Option<i128> {
    let packed = i128::from(exchanged(settings, word));
    let factor = factor(settings);
    let code = packed / factor;
    (packed % factor == 0 && code <= settings.most()).then_some(code)
}

pub fn is_formed(settings: &Settings, word: u16) -> bool {
    read(settings, word).is_some()
}

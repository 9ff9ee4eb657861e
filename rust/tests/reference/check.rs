//! Check: the first wrong sample, or none, or the first refusal.
use super::blocks::block;
use super::fractions::{exact_chroma, exact_luma, within, Exact};
use super::places::{is_u, pixel};
use super::refusals::{frame_refusal, Refusal};
use super::samples::{in_order, Sample};
use super::settle::settle;
use super::storage::read;
use super::{Frame, Settings};

/// The exact value of a visible sample of a named matrix.
pub fn exact_of(settings: &Settings, frame: &Frame, source: &[u16], sample: &Sample) -> Exact {
    let Sample {
        plane,
        row,
        element,
    } = *sample;
    match plane {
        0 => exact_luma(settings, &pixel(settings, frame, source, row, element)),
        _ => {
            let block = block(settings, frame, source, row, element / 2);
            exact_chroma(settings, &block, is_u(settings, element))
        }
    }
}

pub fn check(
    settings: &Settings,
    frame: &Frame,
    source: &[u16],
    luma: &[u16],
    chroma: &[u16],
) -> Result<Option<Sample>, Refusal> {
    settle(settings)?;
    if settings.is_custom() {
        return Err(6.into());
    }
    frame_refusal(settings, frame, [source, luma, chroma])?;
    let is_wrong = |sample: &Sample| {
        let exact = exact_of(settings, frame, source, sample);
        let word = sample.word(frame, luma, chroma);
        !read(settings, word).is_some_and(|code| within(settings, &exact, code))
    };
    Ok(in_order(settings, frame).find(is_wrong))
}

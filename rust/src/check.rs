//! The third service: a recorded frame checked.
use crate::{raw, Frame, Place, Refusal, Settings};

/// What a check says of a recorded frame.
#[derive(Debug, Clone, Copy, PartialEq, Eq, Hash)]
pub enum Checked {
    /// Every visible sample is well formed and within the tolerance.
    Accepted,
    /// The first sample that is not.
    Wrong(Place),
}

/// Judges both planes beside the source, luma row by row and then chroma, up to the first wrong sample.
///
/// A sample is right when its word is well formed and its code lies within 1/2 + 153·m/(100·2^P) of the exact fraction,
/// one half more for chroma of two or four pixels. Padding is not judged. A custom matrix is refused.
///
/// Whatever [`convert`](crate::convert()) writes with a named matrix is accepted.
pub fn check(
    settings: &Settings,
    frame: &Frame,
    source: &[u16],
    luma: &[u16],
    chroma: &[u16],
) -> Result<Checked, Refusal> {
    let checked = raw::check(settings.into(), *frame, source, luma, chroma);
    Refusal::answered_with(checked.refusal, checked.sample)?;
    Ok(match checked.wrong {
        0 => Checked::Accepted,
        _ => Checked::Wrong(Place::of(checked.place)),
    })
}

//! The first service: settings settled.
use crate::{raw, Refusal, Settings, Weights};

/// The nine integer weights of the settings, or the first of refusals 1 to 5 that applies.
///
/// [`convert`](crate::convert()), [`check`](crate::check()) and [`to_rgb`](crate::to_rgb()) settle again by themselves.
///
/// ```
/// use ayresokum::{settle, Refusal, Settings, YuvChromaSubsampling, YuvRange, YuvSourceChannels, YuvStandardMatrix};
///
/// let at_depth = |depth| {
///     Settings::new(
///         depth,
///         YuvStandardMatrix::Smpte240,
///         YuvRange::Full,
///         YuvChromaSubsampling::Yuv444,
///         YuvSourceChannels::Rgb,
///     )
/// };
/// let weights = settle(&at_depth(12))?;
/// assert_eq!((weights.yr, weights.yg, weights.yb), (1737, 5743, 713));
/// // At 13 bits these weights give white the code 8192.
/// assert_eq!(settle(&at_depth(13)), Err(Refusal::CodeOutside));
/// # Ok::<(), Refusal>(())
/// ```
pub fn settle(settings: &Settings) -> Result<Weights, Refusal> {
    let settled = raw::settle(settings.into());
    Refusal::answered(settled.refusal)?;
    Ok(Weights::of(settled.weights))
}

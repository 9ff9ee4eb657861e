//! The second service: a frame converted.
use crate::{raw, Frame, Refusal, Settings};

/// Writes both planes of the frame, or gives the first refusal that applies and touches neither.
///
/// Every visible element of both planes is written. Padding keeps its old value. What lies outside the window is not read, and
/// pairs and blocks of pixels count from its corner. Each buffer is exactly as long as [`Frame::lengths`] says.
///
/// ```
/// use ayresokum::{convert, Frame, Settings, YuvChromaSubsampling, YuvRange, YuvSourceChannels, YuvStandardMatrix};
///
/// let settings = Settings::new(
///     10,
///     YuvStandardMatrix::Bt709,
///     YuvRange::Limited,
///     YuvChromaSubsampling::Yuv420,
///     YuvSourceChannels::Rgb,
/// );
/// let frame = Frame::unpadded(&settings, 2, 2);
/// let lengths = frame.lengths(&settings);
/// let source = vec![1023; lengths.source];
/// let (mut luma, mut chroma) = (vec![0; lengths.luma], vec![0; lengths.chroma]);
/// convert(&settings, &frame, &source, &mut luma, &mut chroma)?;
/// assert_eq!(luma, [940 << 6; 4]);
/// assert_eq!(chroma, [512 << 6; 2]);
/// # Ok::<(), ayresokum::Refusal>(())
/// ```
pub fn convert(
    settings: &Settings,
    frame: &Frame,
    source: &[u16],
    luma: &mut [u16],
    chroma: &mut [u16],
) -> Result<(), Refusal> {
    let converted = raw::convert(settings.into(), *frame, source, luma, chroma);
    Refusal::answered_with(converted.refusal, converted.sample)
}

//! The way back: two planes turned into RGB.
use crate::{raw, Frame, Refusal, Settings};

/// Writes the frame's pixels to an RGB buffer, or gives the first refusal that applies and does not touch the buffer.
///
/// The buffer takes the source's place: the frame is a window on it, and it is exactly as long as [`Frame::lengths`] says of the
/// source. The colours of the window's pixels are written in the settings' channel layout, and m as alpha where there is one.
/// Padding and everything else outside the window keep their old value.
///
/// The planes may come from any converter. Each pixel takes the chroma of its own pair or block, counted from the window's corner,
/// and its colours are held to 0 to m. A word that is not well formed is refused with its place. A custom matrix is refused.
///
/// ```
/// use ayresokum::{convert, to_rgb, Frame, Settings, YuvChromaSubsampling, YuvRange, YuvSourceChannels, YuvStandardMatrix};
///
/// let settings = Settings::new(
///     10,
///     YuvStandardMatrix::Bt709,
///     YuvRange::Full,
///     YuvChromaSubsampling::Yuv422,
///     YuvSourceChannels::Rgb,
/// );
/// // Two pixels of one orange, then two of one blue. Codes are whole numbers, so that a colour may come back one beside itself.
/// let source = [900, 500, 100, 900, 500, 100, 80, 160, 720, 80, 160, 720];
/// let frame = Frame::unpadded(&settings, 4, 1);
/// let (mut luma, mut chroma) = ([0; 4], [0; 4]);
/// convert(&settings, &frame, &source, &mut luma, &mut chroma)?;
///
/// let mut rgb = [0; 12];
/// to_rgb(&settings, &frame, &luma, &chroma, &mut rgb)?;
/// assert_eq!(rgb, [899, 500, 100, 899, 500, 100, 79, 160, 719, 79, 160, 719]);
///
/// // The same planes as blue, green, red and alpha.
/// let bgra = Settings { channels: YuvSourceChannels::Bgra, ..settings };
/// let frame = Frame::unpadded(&bgra, 4, 1);
/// let mut pixels = [0; 16];
/// to_rgb(&bgra, &frame, &luma, &chroma, &mut pixels)?;
/// assert_eq!(pixels[..4], [100, 500, 899, 1023]);
/// # Ok::<(), ayresokum::Refusal>(())
/// ```
///
/// In 10 bits that stand most significant the low six bits of a word are 0.
///
/// ```
/// # use ayresokum::{
/// #     to_rgb, Frame, Place, Plane, Refusal, Settings, YuvChromaSubsampling, YuvRange, YuvSourceChannels, YuvStandardMatrix,
/// # };
/// # let settings = Settings::new(
/// #     10,
/// #     YuvStandardMatrix::Bt709,
/// #     YuvRange::Full,
/// #     YuvChromaSubsampling::Yuv422,
/// #     YuvSourceChannels::Rgb,
/// # );
/// let frame = Frame::unpadded(&settings, 2, 1);
/// let (luma, chroma) = ([512 << 6; 2], [512 << 6, 512 << 6 | 1]);
/// let mut rgb = [7; 6];
/// let refusal = to_rgb(&settings, &frame, &luma, &chroma, &mut rgb).unwrap_err();
/// let place = Place { plane: Plane::Chroma, row: 0, element: 1 };
/// assert_eq!(refusal, Refusal::Malformed(place));
/// assert_eq!(
///     refusal.to_string(),
///     "refusal 13: a visible sample of a plane is not well formed: chroma, row 0, element 1"
/// );
/// assert_eq!(rgb, [7; 6]);
/// ```
pub fn to_rgb(
    settings: &Settings,
    frame: &Frame,
    luma: &[u16],
    chroma: &[u16],
    rgb: &mut [u16],
) -> Result<(), Refusal> {
    let restored = raw::to_rgb(settings.into(), *frame, luma, chroma, rgb);
    Refusal::answered_at(restored.refusal, restored.place)
}

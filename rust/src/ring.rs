//! Many frames converted in one call.
use crate::{raw, Frame, Refusal, Settings};
use std::error::Error;
use std::fmt;

/// Why not every frame of a ring was written, and how many were.
#[derive(Debug, Clone, Copy, PartialEq, Eq, Hash)]
pub struct RingEnded {
    /// How many frames were written, all from the first on.
    pub written: usize,
    /// What ended the ring. [`Refusal::TooLarge`] is that of frame number `written`, counted from 0, and its place counts
    /// within that frame. Any other refusal is one of the whole call, and no frame was written.
    pub refusal: Refusal,
}

/// `3 frames were written; frame 3: refusal 10: ...`, or, where the whole call was refused,
/// `no frame was written: refusal 11: the count of frames is not 1 to 64`.
impl fmt::Display for RingEnded {
    fn fmt(&self, f: &mut fmt::Formatter<'_>) -> fmt::Result {
        let RingEnded { written, refusal } = self;
        match written {
            0 => f.write_str("no frame was written"),
            1 => f.write_str("1 frame was written"),
            _ => write!(f, "{written} frames were written"),
        }?;
        match refusal {
            Refusal::TooLarge(_) => write!(f, "; frame {written}: {refusal}"),
            _ => write!(f, ": {refusal}"),
        }
    }
}

impl Error for RingEnded {}

/// Converts a ring: `count` frames, 1 to 64, that lie end to end in the source and in both planes.
///
/// The frames have equal settings, sizes, strides and windows. Each has the lengths that [`Frame::lengths`] says, so that each
/// buffer is exactly `count` times as long: the source of each frame has all of its rows. The outcome is that of [`convert`](crate::convert()) for one frame after the other: `Ok`
/// says that every frame is written. A sample that is too large ends the ring at its frame. The frames before it are
/// written, its own parts of both planes and those of all frames after it are as they were, and [`RingEnded`] says how many
/// were written. Every other refusal, one for the lengths of the buffers among them, is given before any frame is written.
///
/// ```
/// use ayresokum::{
///     convert_ring, Frame, Refusal, Settings, YuvChromaSubsampling, YuvRange, YuvSourceChannels, YuvStandardMatrix,
/// };
///
/// let settings = Settings::new(
///     10,
///     YuvStandardMatrix::Bt709,
///     YuvRange::Limited,
///     YuvChromaSubsampling::Yuv420,
///     YuvSourceChannels::Rgb,
/// );
/// let frame = Frame::unpadded(&settings, 2, 2);
/// let lengths = frame.lengths(&settings);
/// let count = 3;
/// let mut source = vec![1023; count * lengths.source];
/// let mut luma = vec![0; count * lengths.luma];
/// let mut chroma = vec![0; count * lengths.chroma];
/// convert_ring(&settings, &frame, count, &source, &mut luma, &mut chroma)?;
/// assert!(luma.iter().all(|&word| word == 940 << 6));
///
/// // Red of the last pixel of frame 1 is too large, so that frame 0 alone is written.
/// source[2 * lengths.source - 3] = 1024;
/// luma.fill(0);
/// let ended = convert_ring(&settings, &frame, count, &source, &mut luma, &mut chroma).unwrap_err();
/// assert_eq!(ended.written, 1);
/// assert_eq!(
///     ended.to_string(),
///     "1 frame was written; frame 1: \
///      refusal 10: a visible colour sample of the source exceeds m: row 1, pixel 1, red"
/// );
/// let frames: Vec<&[u16]> = luma.chunks_exact(lengths.luma).collect();
/// assert_eq!(frames, [[940 << 6; 4], [0; 4], [0; 4]]);
///
/// let ended = convert_ring(&settings, &frame, 65, &source, &mut luma, &mut chroma).unwrap_err();
/// assert_eq!((ended.written, ended.refusal), (0, Refusal::Count));
/// # Ok::<(), ayresokum::RingEnded>(())
/// ```
///
/// The functions of [`names`](crate::names) have no such form, since yuvutils-rs converts one frame at a time. A ring with
/// what one of them stands for has [`Settings::new`] with its depth, subsampling and channels.
pub fn convert_ring(
    settings: &Settings,
    frame: &Frame,
    count: usize,
    source: &[u16],
    luma: &mut [u16],
    chroma: &mut [u16],
) -> Result<(), RingEnded> {
    let ring = raw::convert_ring(settings.into(), *frame, count, source, luma, chroma);
    let ended = |refusal| RingEnded {
        written: ring.written as usize,
        refusal,
    };
    Refusal::answered_with(ring.refusal, ring.sample).map_err(ended)
}

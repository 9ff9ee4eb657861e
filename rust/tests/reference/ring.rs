//! A ring: frames laid end to end, converted one after the other.
use super::convert::convert;
use super::refusals::{layout_refusal, Refusal};
use super::settle::settle;
use super::{Frame, Settings};

/// "the answer says how many were written and the refusal that ended it".
#[derive(Debug, Clone, Copy, PartialEq, Eq)]
pub struct RingEnded {
    pub written: usize,
    pub refusal: Refusal,
}

impl From<Refusal> for RingEnded {
    /// A refusal that is given "before any frame is written".
    fn from(refusal: Refusal) -> RingEnded {
        RingEnded {
            written: 0,
            refusal,
        }
    }
}

/// "11, count not 1 to 64, after 8; 9 then speaks of count × stride × rows". The lengths are those of source, luma and chroma.
fn ring_refusal(
    settings: &Settings,
    frame: &Frame,
    count: usize,
    lengths: [usize; 3],
) -> Result<(), Refusal> {
    settle(settings)?;
    layout_refusal(settings, frame)?;
    if !(1..=64).contains(&count) {
        return Err(11.into());
    }
    let of_frame = frame.lengths(settings);
    if lengths.map(|length| length as u128) != of_frame.map(|length| length * count as u128) {
        return Err(9.into());
    }
    Ok(())
}

pub fn convert_ring(
    settings: &Settings,
    frame: &Frame,
    count: usize,
    source: &[u16],
    luma: &mut [u16],
    chroma: &mut [u16],
) -> Result<(), RingEnded> {
    let lengths = [source.len(), luma.len(), chroma.len()];
    ring_refusal(settings, frame, count, lengths)?;
    let of_frame = lengths.map(|length| length / count);
    let lumas = luma.chunks_exact_mut(of_frame[1]);
    let planes = lumas.zip(chroma.chunks_exact_mut(of_frame[2]));
    let frames = source.chunks_exact(of_frame[0]).zip(planes);
    for (written, (source, (luma, chroma))) in frames.enumerate() {
        let ended = |refusal| RingEnded { written, refusal };
        convert(settings, frame, source, luma, chroma).map_err(ended)?;
    }
    Ok(())
}

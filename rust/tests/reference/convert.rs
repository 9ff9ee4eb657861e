//! Convert: both planes written, or the first refusal and neither touched.
use super::blocks::block;
use super::frame::{chroma_elements, chroma_rows};
use super::places::{is_u, pixel};
use super::refusals::{frame_refusal, Refusal};
use super::sample::{averaged, code};
use super::settle::settle;
use super::storage::word;
use super::{Frame, Settings};

pub fn convert(
    settings: &Settings,
    frame: &Frame,
    source: &[u16],
    luma: &mut [u16],
    chroma: &mut [u16],
) -> Result<(), Refusal> {
    let [y, cb, cr] = settle(settings)?;
    frame_refusal(settings, frame, [source, luma, chroma])?;
    for row in 0..frame.height {
        for column in 0..frame.width {
            let pixel = pixel(settings, frame, source, row, column);
            let code = code(settings, settings.bias_y(), &y, &pixel);
            luma[row * frame.luma_stride + column] = word(settings, code);
        }
    }
    for row in 0..chroma_rows(settings, frame.height) as usize {
        for element in 0..chroma_elements(settings, frame.width) as usize {
            let mean = averaged(&block(settings, frame, source, row, element / 2));
            let weights = if is_u(settings, element) { &cb } else { &cr };
            let code = code(settings, settings.bias_uv(), weights, &mean);
            chroma[row * frame.chroma_stride + element] = word(settings, code);
        }
    }
    Ok(())
}

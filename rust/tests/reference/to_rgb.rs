//! Back to RGB: every pixel of the window written, or the first refusal and nothing touched.
use super::frame::pixel_elements;
use super::inverse::{inverse_weights, InverseWeights};
use super::places::{colours, pixel_start};
use super::refusals::{buffers_refusal, Refusal};
use super::samples::{in_order, Sample};
use super::settle::settle;
use super::storage::{is_formed, read};
use super::{Frame, Settings};

/// The codes that a pixel is made from.
pub struct Codes {
    pub y: i128,
    pub cb: i128,
    pub cr: i128,
}

/// "each pixel taking the chroma of its own pair or block". Every word is well formed.
pub fn codes(
    settings: &Settings,
    frame: &Frame,
    luma: &[u16],
    chroma: &[u16],
    [row, column]: [usize; 2],
) -> Codes {
    let (chroma_row, pair) = match settings.subsampling {
        0 => (row / 2, column / 2),
        1 => (row, column / 2),
        _ => (row, column),
    };
    let [u, v] = match settings.order {
        0 => [0, 1],
        _ => [1, 0],
    };
    let code = |plane, row, element| {
        let sample = Sample {
            plane,
            row,
            element,
        };
        read(settings, sample.word(frame, luma, chroma)).unwrap()
    };
    Codes {
        y: code(0, row, column),
        cb: code(1, chroma_row, 2 * pair + u),
        cr: code(1, chroma_row, 2 * pair + v),
    }
}

/// The colour of a sum before it is held to 0 to m: "gets 2^(P−1) − 1, is divided by 2^P rounded down".
fn divided(settings: &Settings, sum: i128) -> i128 {
    let one = settings.one();
    (sum + one / 2 - 1).div_euclid(one)
}

/// Red, green and blue of a pixel before they are held to 0 to m.
pub fn unheld(settings: &Settings, weights: &InverseWeights, codes: &Codes) -> [i128; 3] {
    let y = (codes.y - settings.bias_y()) * weights.y_coef;
    let cb = codes.cb - settings.bias_uv();
    let cr = codes.cr - settings.bias_uv();
    let sums = [
        y + cr * weights.cr_coef,
        y - cr * weights.g_coeff_1 - cb * weights.g_coeff_2,
        y + cb * weights.cb_coef,
    ];
    sums.map(|sum| divided(settings, sum))
}

/// Each colour at its place, "held to 0 to m", and "alpha m", which stands last where there is one.
fn write_pixel(settings: &Settings, unheld: [i128; 3], pixel: &mut [u16]) {
    let most = settings.most();
    for (place, colour) in colours(settings).into_iter().zip(unheld) {
        pixel[place] = colour.clamp(0, most) as u16;
    }
    if let [_, _, _, alpha] = pixel {
        *alpha = most as u16;
    }
}

fn first_malformed(
    settings: &Settings,
    frame: &Frame,
    luma: &[u16],
    chroma: &[u16],
) -> Option<Sample> {
    in_order(settings, frame).find(|sample| !is_formed(settings, sample.word(frame, luma, chroma)))
}

/// "Settle's rules 1 to 5 apply first, then 6 for a custom pair", and 13 "in place of 10".
fn refusal(
    settings: &Settings,
    frame: &Frame,
    luma: &[u16],
    chroma: &[u16],
    rgb: &[u16],
) -> Result<(), Refusal> {
    settle(settings)?;
    if settings.is_custom() {
        return Err(6.into());
    }
    buffers_refusal(settings, frame, [rgb, luma, chroma])?;
    match first_malformed(settings, frame, luma, chroma) {
        None => Ok(()),
        sample => Err(Refusal {
            sample,
            ..13.into()
        }),
    }
}

pub fn to_rgb(
    settings: &Settings,
    frame: &Frame,
    luma: &[u16],
    chroma: &[u16],
    rgb: &mut [u16],
) -> Result<(), Refusal> {
    refusal(settings, frame, luma, chroma, rgb)?;
    let weights = inverse_weights(settings);
    for row in 0..frame.height {
        for column in 0..frame.width {
            let codes = codes(settings, frame, luma, chroma, [row, column]);
            let at = pixel_start(settings, frame, row, column);
            let pixel = &mut rgb[at..at + pixel_elements(settings) as usize];
            write_pixel(settings, unheld(settings, &weights, &codes), pixel);
        }
    }
    Ok(())
}

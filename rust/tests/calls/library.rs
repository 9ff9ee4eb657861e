//! Calls of the library, by the crate's functions or by the raw ones, with the answers in the form that the reference gives them.
use super::call::Call;
use super::random::Random;
use super::ring_call::RingCall;
use crate::raw::{self, PlaceNumbers, RestoredNumbers, RingNumbers, SampleNumbers};
use crate::reference::{Frame, Refusal, RingEnded, Sample, Settings, SourcePlace};
use ayresokum::{
    Channel, Checked, Plane, Strides, Weights, Window, YuvBytesPacking, YuvChromaSubsampling,
    YuvEndianness, YuvNVOrder, YuvRange, YuvSourceChannels, YuvStandardMatrix,
};

#[derive(Debug, Clone, Copy, PartialEq)]
pub enum By {
    Crate,
    Raw,
}

impl By {
    /// Three calls in four by the crate, but none with a number that names no case, since its types rule that out.
    pub fn draw(random: &mut Random, settings: &Settings) -> By {
        match settings.is_meant() && !random.one_in(4) {
            true => By::Crate,
            false => By::Raw,
        }
    }
}

fn meant(settings: &Settings) -> ayresokum::Settings {
    use YuvChromaSubsampling::*;
    use YuvSourceChannels::*;
    use YuvStandardMatrix::*;
    let custom = Custom(settings.kr, settings.kb);
    ayresokum::Settings {
        depth: settings.depth,
        precision: settings.precision,
        matrix: [Bt601, Bt709, Bt2020, Smpte240, Bt470_6, custom][settings.matrix as usize],
        range: [YuvRange::Limited, YuvRange::Full][settings.range as usize],
        subsampling: [Yuv420, Yuv422, Yuv444][settings.subsampling as usize],
        order: [YuvNVOrder::UV, YuvNVOrder::VU][settings.order as usize],
        packing: [
            YuvBytesPacking::MostSignificantBytes,
            YuvBytesPacking::LeastSignificantBytes,
        ][settings.packing as usize],
        endianness: [YuvEndianness::BigEndian, YuvEndianness::LittleEndian]
            [settings.byte_order as usize],
        channels: [Rgb, Rgba, Bgra, Bgr][settings.channels as usize],
    }
}

fn meant_frame(frame: &Frame) -> ayresokum::Frame {
    let window = Window {
        first_column: frame.first_column,
        first_row: frame.first_row,
        width: frame.width,
        height: frame.height,
    };
    let strides = Strides {
        source: frame.source_stride,
        luma: frame.luma_stride,
        chroma: frame.chroma_stride,
    };
    ayresokum::Frame::window(window, frame.source_rows, strides)
}

fn source_place(place: ayresokum::SourcePlace) -> SourcePlace {
    let channel = match place.channel {
        Channel::Red => 0,
        Channel::Green => 1,
        Channel::Blue => 2,
    };
    SourcePlace {
        row: place.row,
        pixel: place.pixel,
        channel,
    }
}

fn refusal(refusal: ayresokum::Refusal) -> Refusal {
    let plain = refusal.number().into();
    match refusal {
        ayresokum::Refusal::TooLarge(place) => Refusal {
            place: Some(source_place(place)),
            ..plain
        },
        ayresokum::Refusal::Malformed(place) => Refusal {
            sample: Some(sample(place)),
            ..plain
        },
        _ => plain,
    }
}

/// The sample that a refusal carries; but for refusal 10 all of its numbers are 0.
fn raw_place(number: u32, sample: SampleNumbers) -> Option<SourcePlace> {
    let [row, pixel, channel] = [sample.row, sample.pixel, sample.channel].map(|n| n as usize);
    if number == 10 {
        return Some(SourcePlace {
            row,
            pixel,
            channel,
        });
    }
    assert_eq!([row, pixel, channel], [0; 3], "a sample with {number}");
    None
}

fn raw_answer(number: u32, sample: SampleNumbers) -> Result<(), Refusal> {
    let place = raw_place(number, sample);
    match number {
        0 => Ok(()),
        _ => Err(Refusal {
            place,
            ..number.into()
        }),
    }
}

fn rows(w: [i32; 9]) -> [[i128; 3]; 3] {
    [0, 3, 6].map(|i| [w[i], w[i + 1], w[i + 2]].map(i128::from))
}

fn nine(w: Weights) -> [i32; 9] {
    [
        w.yr, w.yg, w.yb, w.cb_r, w.cb_g, w.cb_b, w.cr_r, w.cr_g, w.cr_b,
    ]
}

pub fn settle(by: By, settings: &Settings) -> Result<[[i128; 3]; 3], u32> {
    match by {
        By::Crate => {
            let settled = ayresokum::settle(&meant(settings));
            settled.map(|w| rows(nine(w))).map_err(|r| r.number())
        }
        By::Raw => {
            let settled = raw::settle(*settings);
            assert!(
                settled.refusal == 0 || settled.weights == [0; 9],
                "weights with a refusal: {settings:?}"
            );
            match settled.refusal {
                0 => Ok(rows(settled.weights)),
                number => Err(number),
            }
        }
    }
}

pub fn convert(by: By, call: &mut Call) -> Result<(), Refusal> {
    let (settings, frame) = (call.settings, call.frame);
    let (source, luma, chroma) = (&call.source, &mut call.luma, &mut call.chroma);
    match by {
        By::Crate => {
            let (settings, frame) = (meant(&settings), meant_frame(&frame));
            let converted = ayresokum::convert(&settings, &frame, source, luma, chroma);
            converted.map_err(refusal)
        }
        By::Raw => {
            let converted = raw::convert(settings, frame, source, luma, chroma);
            raw_answer(converted.refusal, converted.sample)
        }
    }
}

fn ring_ended(ended: ayresokum::RingEnded) -> RingEnded {
    RingEnded {
        written: ended.written,
        refusal: refusal(ended.refusal),
    }
}

/// What a ring's numbers mean; without a refusal all frames are written.
fn raw_ring(count: usize, ring: RingNumbers) -> Result<(), RingEnded> {
    let written = ring.written as usize;
    assert!(
        ring.refusal != 0 || written == count,
        "{written} of {count} frames and no refusal"
    );
    let ended = |refusal| RingEnded { written, refusal };
    raw_answer(ring.refusal, ring.sample).map_err(ended)
}

pub fn convert_ring(by: By, ring: &mut RingCall) -> Result<(), RingEnded> {
    let RingCall { count, call } = ring;
    let (settings, frame) = (call.settings, call.frame);
    let (source, luma, chroma) = (&call.source, &mut call.luma, &mut call.chroma);
    match by {
        By::Crate => {
            let (settings, frame) = (meant(&settings), meant_frame(&frame));
            let done = ayresokum::convert_ring(&settings, &frame, *count, source, luma, chroma);
            done.map_err(ring_ended)
        }
        By::Raw => raw_ring(
            *count,
            raw::convert_ring(settings, frame, *count, source, luma, chroma),
        ),
    }
}

fn sample(place: ayresokum::Place) -> Sample {
    let plane = match place.plane {
        Plane::Luma => 0,
        Plane::Chroma => 1,
    };
    Sample {
        plane,
        row: place.row,
        element: place.element,
    }
}

/// The place of a wrong sample; where none is wrong all of its numbers are 0.
fn raw_sample(wrong: u32, place: PlaceNumbers) -> Option<Sample> {
    let [plane, row, element] = [place.plane, place.row, place.element].map(|n| n as usize);
    if wrong == 1 {
        return Some(Sample {
            plane,
            row,
            element,
        });
    }
    assert_eq!(wrong, 0, "neither wrong nor right");
    assert_eq!([plane, row, element], [0; 3], "a place of no wrong sample");
    None
}

pub fn check(by: By, call: &Call) -> Result<Option<Sample>, Refusal> {
    let (settings, frame) = (call.settings, call.frame);
    let (source, luma, chroma) = (&call.source, &call.luma, &call.chroma);
    match by {
        By::Crate => {
            let (settings, frame) = (meant(&settings), meant_frame(&frame));
            let checked = ayresokum::check(&settings, &frame, source, luma, chroma);
            let named = checked.map(|c| match c {
                Checked::Accepted => None,
                Checked::Wrong(place) => Some(sample(place)),
            });
            named.map_err(refusal)
        }
        By::Raw => {
            let checked = raw::check(settings, frame, source, luma, chroma);
            assert!(
                checked.refusal == 0 || checked.wrong == 0,
                "wrong and refused: {}",
                call.told()
            );
            let wrong = raw_sample(checked.wrong, checked.place);
            raw_answer(checked.refusal, checked.sample).map(|()| wrong)
        }
    }
}

/// What the numbers of the way back mean; but for refusal 13 all of the place's are 0.
fn raw_restored(restored: RestoredNumbers) -> Result<(), Refusal> {
    let number = restored.refusal;
    let sample = raw_sample(u32::from(number == 13), restored.place);
    match number {
        0 => Ok(()),
        _ => Err(Refusal {
            sample,
            ..number.into()
        }),
    }
}

pub fn to_rgb(by: By, call: &mut Call) -> Result<(), Refusal> {
    let (settings, frame) = (call.settings, call.frame);
    let (luma, chroma, rgb) = (&call.luma, &call.chroma, &mut call.source);
    match by {
        By::Crate => {
            let (settings, frame) = (meant(&settings), meant_frame(&frame));
            let restored = ayresokum::to_rgb(&settings, &frame, luma, chroma, rgb);
            restored.map_err(refusal)
        }
        By::Raw => raw_restored(raw::to_rgb(settings, frame, luma, chroma, rgb)),
    }
}

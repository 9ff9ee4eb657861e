//! How often the way back was done, from which planes, and which word was refused where.
use super::call::Call;
use super::counts::{refused, Counts};
use crate::reference::{codes, in_order, inverse_weights, is_formed, unheld, Refusal, Sample};

pub const DONE: &str = "done";
const HELD: [&str; 3] = ["colours held to 0", "colours not held", "colours held to m"];
const BELOW_BLACK: &str = "codes below black";
const ILL_PADDING: &str = "done, padding not well formed";
const AFTER_PADDING: &str = "refusal 13 after padding not well formed";
const PLANES: [&str; 2] = ["luma", "chroma"];
const PLACES: [&str; 3] = ["first", "between", "last"];

fn stored(packing: u32, byte_order: u32) -> String {
    format!("packing {packing}, byte order {byte_order}")
}

fn shared(subsampling: u32, order: u32) -> String {
    format!("done, subsampling {subsampling}, order {order}")
}

fn laid_out(channels: u32) -> String {
    format!("done, channels {channels}")
}

fn refused_at(plane: usize, place: &str) -> String {
    format!("refusal 13 in {}, {place}", PLANES[plane])
}

fn refused_in(plane: usize) -> String {
    format!("refusal 13 in {}", PLANES[plane])
}

fn refused_stored(packing: u32, byte_order: u32) -> String {
    format!("refusal 13, {}", stored(packing, byte_order))
}

/// Whether a word past the visible ones of some row is not well formed. The words are those of a plane, or its first ones.
fn is_padding_ill(call: &Call, number: usize, words: &[u16]) -> bool {
    let [_, luma, chroma] = call.frame.covered(&call.settings);
    let [_, luma_stride, chroma_stride] = call.frame.strides();
    let (visible, stride) = [(luma, luma_stride), (chroma, chroma_stride)][number];
    let mut rows = words.chunks(stride);
    let is_ill = |&word: &u16| !is_formed(&call.settings, word);
    rows.any(|row| row.iter().skip(visible as usize).any(is_ill))
}

fn count_colours(call: &Call, counts: &mut Counts) {
    let Call {
        settings, frame, ..
    } = call;
    let weights = inverse_weights(settings);
    let mut held = [0; 3];
    let mut below_black = 0;
    for row in 0..frame.height {
        for column in 0..frame.width {
            let codes = codes(settings, frame, &call.luma, &call.chroma, [row, column]);
            below_black += usize::from(codes.y < settings.bias_y());
            for colour in unheld(settings, &weights, &codes) {
                held[usize::from(colour >= 0) + usize::from(colour > settings.most())] += 1;
            }
        }
    }
    counts.add_many(BELOW_BLACK, below_black);
    for (what, colours) in HELD.into_iter().zip(held) {
        counts.add_many(what, colours);
    }
}

fn count_done(call: &Call, counts: &mut Counts) {
    let settings = &call.settings;
    counts.add(DONE);
    counts.add(shared(settings.subsampling, settings.order));
    counts.add(format!(
        "done, {}",
        stored(settings.packing, settings.byte_order)
    ));
    counts.add(laid_out(settings.channels));
    if is_padding_ill(call, 0, &call.luma) || is_padding_ill(call, 1, &call.chroma) {
        counts.add(ILL_PADDING);
    }
    count_colours(call, counts);
}

fn place_in_plane(call: &Call, sample: &Sample) -> &'static str {
    let [first, between, last] = PLACES;
    let same_plane = |other: &Sample| other.plane == sample.plane;
    let mut samples = in_order(&call.settings, &call.frame).filter(same_plane);
    match sample {
        _ if samples.next() == Some(*sample) => first,
        _ if samples.last() == Some(*sample) => last,
        _ => between,
    }
}

/// Whether a word of padding in a row above the sample's is not well formed.
fn is_after_padding(call: &Call, sample: &Sample) -> bool {
    let [_, luma_stride, chroma_stride] = call.frame.strides();
    let above = match sample.plane {
        0 => &call.luma[..sample.row * luma_stride],
        _ => &call.chroma[..sample.row * chroma_stride],
    };
    is_padding_ill(call, sample.plane, above)
}

fn count_malformed(call: &Call, sample: &Sample, counts: &mut Counts) {
    let settings = &call.settings;
    counts.add(refused_in(sample.plane));
    counts.add(refused_at(sample.plane, place_in_plane(call, sample)));
    counts.add(refused_stored(settings.packing, settings.byte_order));
    if is_after_padding(call, sample) {
        counts.add(AFTER_PADDING);
    }
}

pub fn count(call: &Call, answer: Result<(), Refusal>, counts: &mut Counts) {
    match answer {
        Ok(()) => count_done(call, counts),
        Err(refusal) => {
            counts.add(refused(refusal.number));
            if let Some(sample) = refusal.sample {
                count_malformed(call, &sample, counts);
            }
        }
    }
}

/// That planes of every kind were turned back, and colours held on both sides.
pub fn assert_done(counts: &Counts) {
    let bits = [[0, 0], [0, 1], [1, 0], [1, 1]];
    let shares = (0..3).flat_map(|subsampling| (0..2).map(move |order| shared(subsampling, order)));
    counts.assert_at_least(20_000, &[DONE]);
    counts.assert_at_least(2_000, &shares.collect::<Vec<_>>());
    counts.assert_at_least(2_000, &bits.map(|[p, b]| format!("done, {}", stored(p, b))));
    counts.assert_at_least(2_000, &[0, 1, 2, 3].map(laid_out));
    counts.assert_at_least(100_000, &HELD);
    counts.assert_at_least(20_000, &[BELOW_BLACK]);
    counts.assert_at_least(5_000, &[ILL_PADDING]);
}

/// That words were refused in both planes, at either end and between, however they are stored.
pub fn assert_malformed(counts: &Counts) {
    let bits = [[0, 0], [0, 1], [1, 0], [1, 1]];
    counts.assert_at_least(800, &[0, 1].map(refused_in));
    for place in PLACES {
        counts.assert_at_least(100, &[0, 1].map(|plane| refused_at(plane, place)));
    }
    counts.assert_at_least(500, &bits.map(|[p, b]| refused_stored(p, b)));
    counts.assert_at_least(300, &[AFTER_PADDING]);
}

//! Changes to a recorded frame, some of which a check must see and some of which it must not.
use super::buffers;
use super::call::Call;
use super::malformed::one_bit_off;
use super::random::Random;
use crate::reference::{exact_of, reach, within, word, Sample};

#[derive(Debug, Clone, Copy)]
pub enum Change {
    /// A row of another picture, or one never written.
    StaleRow,
    /// The same of all rows from one on.
    StaleRest,
    /// One sample at the edge of the tolerance.
    LastWithin,
    /// One sample a code beyond it.
    FirstBeyond,
    /// One bit flipped so that the word is not well formed.
    Malformed,
    /// Any word at one place.
    AnyWord,
    /// Elements past the visible ones.
    Padding,
    /// Samples of the source that are never read.
    Unread,
    /// One sample of the source.
    Source,
}

pub const ALL: [Change; 9] = [
    Change::StaleRow,
    Change::StaleRest,
    Change::LastWithin,
    Change::FirstBeyond,
    Change::Malformed,
    Change::AnyWord,
    Change::Padding,
    Change::Unread,
    Change::Source,
];

/// A plane of a call, with its shape.
struct Plane<'a> {
    words: &'a mut [u16],
    stride: usize,
    visible: usize,
}

impl Plane<'_> {
    fn rows(&self) -> usize {
        self.words.len() / self.stride
    }
}

fn plane(call: &mut Call, number: usize) -> Plane<'_> {
    let [_, luma, chroma] = call.frame.covered(&call.settings);
    match number {
        0 => Plane {
            words: &mut call.luma,
            stride: call.frame.luma_stride,
            visible: luma as usize,
        },
        _ => Plane {
            words: &mut call.chroma,
            stride: call.frame.chroma_stride,
            visible: chroma as usize,
        },
    }
}

fn sample(random: &mut Random, call: &mut Call) -> Sample {
    let number = random.below(2);
    let plane = plane(call, number);
    Sample {
        plane: number,
        row: random.place(plane.rows()),
        element: random.place(plane.visible),
    }
}

fn word_at<'a>(call: &'a mut Call, sample: &Sample) -> &'a mut u16 {
    let plane = plane(call, sample.plane);
    let at = sample.row * plane.stride + sample.element;
    &mut plane.words[at]
}

/// The same frame with another picture, or with planes filled with 7.
fn another(random: &mut Random, call: &Call) -> Call {
    let mut other = call.clone();
    if random.one_in(3) {
        other.luma.fill(7);
        other.chroma.fill(7);
        return other;
    }
    other.source = buffers::source(random, &call.settings, &call.frame, call.source.len());
    other.convert().unwrap();
    other
}

/// Copies visible elements alone, so that padding stays what it was.
fn make_stale(random: &mut Random, call: &mut Call, all_below: bool) {
    let mut other = another(random, call);
    let number = random.below(2);
    let from = plane(&mut other, number);
    let to = plane(call, number);
    let first = random.place(to.rows());
    let end = if all_below { to.rows() } else { first + 1 };
    for row in first..end {
        let visible = row * to.stride..row * to.stride + to.visible;
        to.words[visible.clone()].copy_from_slice(&from.words[visible]);
    }
}

/// Moves one sample to the lowest or highest code within the tolerance, or `beyond` codes past it. Says whether there is one.
fn move_to_edge(random: &mut Random, call: &mut Call, beyond: i128) -> bool {
    let sample = sample(random, call);
    let exact = exact_of(&call.settings, &call.frame, &call.source, &sample);
    let (lowest, highest) = reach(&call.settings, &exact);
    let is_within = |code| within(&call.settings, &exact, code);
    assert!(is_within(lowest) && is_within(highest));
    assert!(!is_within(lowest - 1) && !is_within(highest + 1));
    let mut codes = vec![lowest - beyond, highest + beyond];
    codes.retain(|code| (0..=call.settings.most()).contains(code));
    if codes.is_empty() {
        return false;
    }
    *word_at(call, &sample) = word(&call.settings, random.pick(&codes));
    true
}

/// Flips one bit of a sample so that it is not well formed. Says whether one bit can; at 16 bits none can.
fn malform(random: &mut Random, call: &mut Call) -> bool {
    let sample = sample(random, call);
    let stored = *word_at(call, &sample);
    let words = one_bit_off(&call.settings, stored);
    if words.is_empty() {
        return false;
    }
    *word_at(call, &sample) = random.pick(&words);
    true
}

fn change_padding(random: &mut Random, call: &mut Call) -> bool {
    let mut changed = false;
    for number in 0..2 {
        let Plane {
            words,
            stride,
            visible,
        } = plane(call, number);
        for row in words.chunks_exact_mut(stride) {
            row[visible..].fill_with(|| random.word());
        }
        changed |= stride > visible;
    }
    changed
}

fn change_unread(random: &mut Random, call: &mut Call) -> bool {
    let places = buffers::colour_places(&call.settings, &call.frame, call.source.len());
    let kept: Vec<u16> = places.iter().map(|&place| call.source[place]).collect();
    call.source.fill_with(|| random.word());
    for (&place, &sample) in places.iter().zip(&kept) {
        call.source[place] = sample;
    }
    places.len() < call.source.len()
}

fn change_source(random: &mut Random, call: &mut Call) {
    let places = buffers::colour_places(&call.settings, &call.frame, call.source.len());
    let most = u32::from(buffers::most(&call.settings));
    call.source[places[random.place(places.len())]] = (random.bits() % (most + 1)) as u16;
}

impl Change {
    /// Makes the change to a call that the reference converted, and says whether there was anything to change.
    pub fn make(self, random: &mut Random, call: &mut Call) -> bool {
        match self {
            Change::StaleRow => make_stale(random, call, false),
            Change::StaleRest => make_stale(random, call, true),
            Change::LastWithin => return move_to_edge(random, call, 0),
            Change::FirstBeyond => return move_to_edge(random, call, 1),
            Change::Malformed => return malform(random, call),
            Change::AnyWord => {
                let sample = sample(random, call);
                *word_at(call, &sample) = random.word();
            }
            Change::Padding => return change_padding(random, call),
            Change::Unread => return change_unread(random, call),
            Change::Source => change_source(random, call),
        }
        true
    }
}

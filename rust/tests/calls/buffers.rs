//! Buffers drawn: lengths, the samples of a source, the old words of a plane.
use super::random::Random;
use crate::reference::{chroma_rows, pixel_elements, Frame, Settings};

const LONGEST: u128 = 140_000;
/// A frame of more pixels is damaged, and its samples are not drawn.
pub const PIXELS: usize = 40_000;

/// The exact length of each buffer for so many frames, or a short one where the exact one is too long for a test.
pub fn lengths(
    random: &mut Random,
    settings: &Settings,
    frame: &Frame,
    frames: usize,
) -> [usize; 3] {
    let all = |length: u128| length.saturating_mul(frames as u128);
    frame.lengths(settings).map(|length| match all(length) {
        length @ 0..=LONGEST => length as usize,
        _ => random.below(20),
    })
}

/// The rows that a buffer of a window could be taken to have: in the source those of the window or those down to its last one, in a
/// plane as many as the source has.
fn mistaken_rows(random: &mut Random, settings: &Settings, frame: &Frame, which: usize) -> u128 {
    let [height, first_row] = [frame.height, frame.first_row].map(|n| n as u128);
    match which {
        0 => random.pick(&[height, height + first_row]),
        1 => frame.source_rows as u128,
        _ => chroma_rows(settings, frame.source_rows),
    }
}

/// Makes one length of so many frames wrong: one short, one long, empty, a row more, without what follows the last pixel of the
/// last row, or for a wrong number of rows.
pub fn spoil_length(
    random: &mut Random,
    settings: &Settings,
    frame: &Frame,
    frames: usize,
    lengths: &mut [usize; 3],
) {
    let which = random.below(3);
    let stride = frame.strides()[which];
    let padding = (stride as u128).saturating_sub(frame.covered(settings)[which]);
    let rows = mistaken_rows(random, settings, frame, which);
    let mistaken = (stride as u128)
        .saturating_mul(rows)
        .saturating_mul(frames as u128);
    let length = &mut lengths[which];
    *length = match random.below(10) {
        0 => 0,
        1 => *length + stride.min(LONGEST as usize),
        2 => length.saturating_sub(padding as usize),
        3 | 4 => length.saturating_sub(1),
        5 => *length + 1,
        _ if mistaken > LONGEST => 0,
        _ => mistaken as usize,
    };
}

/// The largest sample m of the depth, or of 10 bits where the depth is not 10 to 16.
pub fn most(settings: &Settings) -> u16 {
    match settings.depth {
        10..=16 => settings.most() as u16,
        _ => 1_023,
    }
}

/// The indices of all visible colour samples, without alpha, which stands last in a pixel; none where the frame is too large.
pub fn colour_places(settings: &Settings, frame: &Frame, length: usize) -> Vec<usize> {
    let elements = pixel_elements(settings) as usize;
    let mut places = Vec::new();
    if frame.width.saturating_mul(frame.height) > PIXELS {
        return places;
    }
    for row in 0..frame.height {
        for column in 0..frame.width {
            let row = frame.first_row.saturating_add(row);
            let column = frame.first_column.saturating_add(column);
            let at = row
                .saturating_mul(frame.source_stride)
                .saturating_add(column.saturating_mul(elements));
            places.extend((0..3).map(|c| at.saturating_add(c)).filter(|&i| i < length));
        }
    }
    places
}

fn sample(random: &mut Random, manner: usize, most: u16) -> u16 {
    match manner {
        0 => random.pick(&[0, most]),
        1 => random.pick(&[0, 1, 2, most - 2, most - 1, most]),
        2 => most / 2 + random.below(5) as u16,
        _ => (random.word() as u32 % (u32::from(most) + 1)) as u16,
    }
}

/// What stands outside the window and in alpha: any word, mostly too large for a sample.
fn unread(random: &mut Random, most: u16) -> u16 {
    match random.below(3) {
        0 => most.saturating_add(1),
        1 => u16::MAX,
        _ => random.word(),
    }
}

pub fn source(random: &mut Random, settings: &Settings, frame: &Frame, length: usize) -> Vec<u16> {
    let most = most(settings);
    let manner = random.below(6);
    let mut source: Vec<u16> = (0..length).map(|_| unread(random, most)).collect();
    for place in colour_places(settings, frame, length) {
        source[place] = sample(random, manner, most);
    }
    source
}

pub fn plane(random: &mut Random, length: usize) -> Vec<u16> {
    match random.below(2) {
        0 => vec![7; length],
        _ => (0..length).map(|_| random.word()).collect(),
    }
}

//! How many frames and samples were compared, and how.
use crate::fault;
use crate::frame::{Frame, Planes};
use crate::settings::{Settings, RANGES};
use std::collections::BTreeMap;

#[derive(Default)]
pub struct Tally {
    frames: usize,
    samples: usize,
    padding: usize,
    pub with_i32: usize,
    faulty_frames: usize,
    faulty_elements: usize,
    refused: BTreeMap<u32, usize>,
    /// Precision, depth and range for which every matrix is refused.
    pub without_matrix: Vec<Settings>,
}

fn different(a: &[u16], b: &[u16]) -> usize {
    a.iter().zip(b).filter(|(x, y)| x != y).count()
}

impl Tally {
    pub fn count(&mut self, settings: &Settings, frame: &Frame, ours: &Planes, theirs: &Planes) {
        let rows = settings.chroma_rows(frame.height);
        let visible = frame.width * frame.height + settings.chroma_width(frame.width) * rows;
        self.frames += 1;
        self.samples += visible;
        self.padding += ours.luma.len() + ours.chroma.len() - visible;
        if fault::is_met(settings, frame) {
            self.faulty_frames += 1;
            self.faulty_elements += different(&ours.luma, &theirs.luma);
        }
    }

    pub fn refuse(&mut self, refusal: u32) {
        *self.refused.entry(refusal).or_default() += 1;
    }

    pub fn print(&self) {
        println!("frames compared: {}", self.frames);
        println!("  of them with i32 weights too: {}", self.with_i32);
        println!("samples compared: {}", self.samples);
        println!("elements of padding compared: {}", self.padding);
        println!(
            "frames with the fault of odd widths: {}",
            self.faulty_frames
        );
        println!(
            "  luma elements that differ by it: {}",
            self.faulty_elements
        );
        for (refusal, frames) in &self.refused {
            println!("frames outside the domain, refusal {refusal} of ours: {frames}");
        }
        for Settings {
            precision,
            depth,
            range,
            ..
        } in &self.without_matrix
        {
            let range = RANGES[*range as usize];
            println!("every matrix refused: P {precision}, depth {depth}, {range}");
        }
    }
}

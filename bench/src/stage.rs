//! The buffers of one case, and what is timed on them.
use crate::cases::Case;
use crate::frame::{Frame, Planes};
use crate::random::Random;
use crate::raw::SampleNumbers;
use crate::settings::Settings;
use crate::timed::{Timed, UNWRITTEN};
use crate::{ours, theirs};
use published::Loops;
use std::hint::black_box;

#[derive(Clone, Copy, PartialEq)]
pub enum Candidate {
    Copy,
    Crate,
    Ours,
    Check,
    /// Ours, of the same frame with its last colour sample too large.
    Refused,
}

pub struct Stage {
    settings: Settings,
    frame: Frame,
    loops: Loops,
    source: Vec<u16>,
    /// Both converters write the same planes, so that neither finds its own in the cache.
    planes: Planes,
    copied_from: Vec<u16>,
    copied_to: Vec<u16>,
}

pub fn random_samples(settings: &Settings, length: usize) -> Vec<u16> {
    let mut random = Random::new(1);
    let m = settings.m();
    (0..length).map(|_| random.word() & m).collect()
}

impl Timed for Stage {
    type Candidate = Candidate;

    /// Before the first round every buffer is written, both converters are seen to write the same planes, and the check to accept them.
    /// Padded rows are left out of the comparison, since the crate takes no chroma plane that has padding.
    fn new(case: &Case) -> Stage {
        let settings = case.settings;
        let frame = Frame::padded(&settings, case.width, case.height, [case.padding; 3]);
        let source = random_samples(&settings, frame.source_length());
        let (luma_length, chroma_length) = (frame.luma_length(), frame.chroma_length(&settings));
        let together = source.len() + luma_length + chroma_length;
        let mut stage = Stage {
            settings,
            frame,
            loops: theirs::loops(&settings),
            source,
            planes: Planes::filled(luma_length, chroma_length, UNWRITTEN),
            copied_from: vec![2; together],
            copied_to: vec![3; together],
        };
        assert!(
            case.padding > 0 || stage.write_the_same(Candidate::Crate, Candidate::Ours),
            "{settings} {frame}: the planes differ"
        );
        stage.run(Candidate::Ours);
        stage.run(Candidate::Check);
        stage
    }

    fn planes(&mut self) -> &mut Planes {
        &mut self.planes
    }

    fn run(&mut self, candidate: Candidate) {
        match candidate {
            Candidate::Copy => self.copy(),
            Candidate::Crate => self.convert_by_crate(),
            Candidate::Ours => self.convert_by_ours(),
            Candidate::Check => self.check(),
            Candidate::Refused => self.refuse(),
        }
    }
}

impl Stage {
    fn copy(&mut self) {
        self.copied_to.copy_from_slice(black_box(&self.copied_from));
        black_box(&self.copied_to);
    }

    fn convert_by_crate(&mut self) {
        theirs::convert(
            black_box(self.loops),
            &self.frame,
            &self.source,
            &mut self.planes,
        );
    }

    fn convert_by_ours(&mut self) {
        let answer = ours::convert(&self.settings, &self.frame, &self.source, &mut self.planes);
        assert_eq!(
            answer.refusal, 0,
            "{} {}: refused",
            self.settings, self.frame
        );
    }

    fn check(&mut self) {
        let answer = ours::check(&self.settings, &self.frame, &self.source, &self.planes);
        assert_eq!(
            (answer.refusal, answer.wrong),
            (0, 0),
            "{} {}: not accepted",
            self.settings,
            self.frame
        );
    }

    /// The sample is put back, so that the other candidates find the frame as it was.
    fn refuse(&mut self) {
        let Frame { width, height, .. } = self.frame;
        let (row, pixel) = (height - 1, width - 1);
        let blue = row * self.frame.source_stride + pixel * self.settings.channel_count() + 2;
        let sample = std::mem::replace(&mut self.source[blue], u16::MAX);
        let answer = ours::convert(&self.settings, &self.frame, &self.source, &mut self.planes);
        self.source[blue] = sample;
        let expected = SampleNumbers {
            row: row as u32,
            pixel: pixel as u32,
            channel: 2,
        };
        assert_eq!(
            (answer.refusal, answer.sample),
            (ours::TOO_LARGE, expected),
            "{} {}: not refused by its last sample",
            self.settings,
            self.frame
        );
    }
}

//! A ring converted in one call, beside as many calls of one frame each.
use crate::cases::{self, Case};
use crate::frame::{Frame, Planes};
use crate::raw;
use crate::rounds::{self, Times};
use crate::settings::Settings;
use crate::stage::random_samples;
use crate::timed::{Timed, UNWRITTEN};

/// The most frames that a ring may have.
const FRAMES: usize = 64;

#[derive(Clone, Copy, PartialEq)]
enum Candidate {
    Ring,
    Singles,
}

struct Ring {
    settings: Settings,
    frame: Frame,
    source: Vec<u16>,
    /// Both candidates write the same planes.
    planes: Planes,
}

impl Timed for Ring {
    type Candidate = Candidate;

    /// Before the first round every buffer is written, and both candidates are seen to write the same planes.
    fn new(case: &Case) -> Ring {
        let settings = case.settings;
        let frame = Frame::padded(&settings, case.width, case.height, [case.padding; 3]);
        let (luma, chroma) = (frame.luma_length(), frame.chroma_length(&settings));
        let mut ring = Ring {
            settings,
            frame,
            source: random_samples(&settings, FRAMES * frame.source_length()),
            planes: Planes::filled(FRAMES * luma, FRAMES * chroma, UNWRITTEN),
        };
        assert!(
            ring.write_the_same(Candidate::Singles, Candidate::Ring),
            "{settings} {frame}: the planes differ"
        );
        ring
    }

    fn planes(&mut self) -> &mut Planes {
        &mut self.planes
    }

    fn run(&mut self, candidate: Candidate) {
        match candidate {
            Candidate::Ring => self.convert_ring(),
            Candidate::Singles => self.convert_one_by_one(),
        }
    }
}

impl Ring {
    fn convert_ring(&mut self) {
        let Planes { luma, chroma } = &mut self.planes;
        let answer = raw::convert_ring(
            self.settings,
            self.frame,
            FRAMES,
            &self.source,
            luma,
            chroma,
        );
        assert_eq!(
            (answer.refusal, answer.written),
            (0, FRAMES as u32),
            "{} {}: refused",
            self.settings,
            self.frame
        );
    }

    fn convert_one_by_one(&mut self) {
        let Ring {
            settings, frame, ..
        } = *self;
        let lumas = self.planes.luma.chunks_exact_mut(frame.luma_length());
        let chroma_length = frame.chroma_length(&settings);
        let planes = lumas.zip(self.planes.chroma.chunks_exact_mut(chroma_length));
        let frames = self.source.chunks_exact(frame.source_length()).zip(planes);
        for (source, (luma, chroma)) in frames {
            let answer = raw::convert(settings, frame, source, luma, chroma);
            assert_eq!(answer.refusal, 0, "{settings} {frame}: refused");
        }
    }
}

fn print_row(case: &Case, times: &Times<Candidate>) {
    let ring = times.milliseconds(Candidate::Ring);
    let singles = times.milliseconds(Candidate::Singles);
    println!(
        "| {}×{} | {ring:.2} | {singles:.2} | {:.3} |",
        case.width,
        case.height,
        ring / singles,
    );
}

pub fn print() {
    println!(
        "
{FRAMES} frames at 10 bits, Rgb, 4:2:0, end to end, by one call of ayresokum_convert_ring and by {FRAMES} calls of ayresokum_convert:

| size of a frame | ring, ms | single calls, ms | ring/single calls |
|---|---|---|---|"
    );
    let cases = cases::rings();
    let best = rounds::best_times::<Ring>(&cases, &[Candidate::Ring, Candidate::Singles]);
    for (case, times) in cases.iter().zip(&best) {
        print_row(case, times);
    }
}

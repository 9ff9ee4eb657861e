//! Planes turned back to RGB, beside the conversion that wrote them.
use crate::cases::{self, Case};
use crate::frame::{Frame, Planes};
use crate::rounds::{self, Times};
use crate::settings::{Settings, CHANNELS, SUBSAMPLINGS};
use crate::stage::random_samples;
use crate::timed::{Timed, UNWRITTEN};
use crate::{ours, raw};

#[derive(Clone, Copy, PartialEq)]
enum Candidate {
    Convert,
    ToRgb,
}

const TIMED: [Candidate; 2] = [Candidate::Convert, Candidate::ToRgb];

struct ThereAndBack {
    settings: Settings,
    frame: Frame,
    source: Vec<u16>,
    planes: Planes,
    rgb: Vec<u16>,
}

impl Timed for ThereAndBack {
    type Candidate = Candidate;

    /// Before the first round every buffer is written, and no element of the RGB buffer is seen to be left out.
    fn new(case: &Case) -> ThereAndBack {
        let settings = case.settings;
        let frame = Frame::padded(&settings, case.width, case.height, [case.padding; 3]);
        let (luma, chroma) = (frame.luma_length(), frame.chroma_length(&settings));
        let mut both = ThereAndBack {
            settings,
            frame,
            source: random_samples(&settings, frame.source_length()),
            planes: Planes::filled(luma, chroma, UNWRITTEN),
            rgb: Vec::new(),
        };
        both.run(Candidate::Convert);
        both.assert_written();
        both
    }

    fn planes(&mut self) -> &mut Planes {
        &mut self.planes
    }

    fn run(&mut self, candidate: Candidate) {
        let (settings, frame) = (&self.settings, &self.frame);
        let refusal = match candidate {
            Candidate::Convert => {
                ours::convert(settings, frame, &self.source, &mut self.planes).refusal
            }
            Candidate::ToRgb => {
                let Planes { luma, chroma } = &self.planes;
                raw::to_rgb(*settings, *frame, luma, chroma, &mut self.rgb).refusal
            }
        };
        assert_eq!(refusal, 0, "{settings} {frame}: refused");
    }
}

impl ThereAndBack {
    /// That two buffers which differ everywhere before are the same after.
    fn assert_written(&mut self) {
        let [zeros, ones] = [0, u16::MAX].map(|sample| {
            self.rgb = vec![sample; self.source.len()];
            self.run(Candidate::ToRgb);
            std::mem::take(&mut self.rgb)
        });
        assert!(
            zeros == ones,
            "{} {}: not all of the RGB buffer is written",
            self.settings,
            self.frame
        );
        self.rgb = zeros;
    }
}

fn print_row(case: &Case, times: &Times<Candidate>) {
    let [convert, to_rgb] = TIMED.map(|candidate| times.milliseconds(candidate));
    println!(
        "| {} | {} | {} | {}×{} | {convert:.2} | {to_rgb:.2} | {:.2} |",
        case.settings.depth,
        CHANNELS[case.settings.channels as usize],
        SUBSAMPLINGS[case.settings.subsampling as usize],
        case.width,
        case.height,
        to_rgb / convert,
    );
}

pub fn print() {
    println!(
        "
A frame converted by ayresokum_convert, and its planes turned back by ayresokum_to_rgb. Both settle and ask every refusal, and at 16 bits
no sample and no word is refused:

| depth | channels | subsampling | size | convert, ms | to RGB, ms | to RGB/convert |
|---|---|---|---|---|---|---|"
    );
    let cases = cases::all();
    let best = rounds::best_times::<ThereAndBack>(&cases, &TIMED);
    for (case, times) in cases.iter().zip(&best) {
        print_row(case, times);
    }
}

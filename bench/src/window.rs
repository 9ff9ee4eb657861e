//! A window of half of the sensor's columns beside the whole sensor: converting and checking half of the pixels should take half of the time.
use crate::cases::{self, Case};
use crate::frame::{Frame, Planes};
use crate::ours;
use crate::rounds::{self, Times};
use crate::settings::{Settings, SUBSAMPLINGS};
use crate::stage::random_samples;
use crate::timed::{Timed, UNWRITTEN};

#[derive(Clone, Copy, PartialEq)]
enum Candidate {
    Whole,
    Window,
    /// The window's pixels in a source of their own. It is not timed.
    CutOut,
    CheckWhole,
    CheckWindow,
}

const TIMED: [Candidate; 4] = [
    Candidate::Whole,
    Candidate::Window,
    Candidate::CheckWhole,
    Candidate::CheckWindow,
];

struct Sensor {
    settings: Settings,
    source: Vec<u16>,
    whole: Frame,
    whole_planes: Planes,
    window: Frame,
    cut_out: Frame,
    cut_out_source: Vec<u16>,
    /// Of the window and of the frame that was cut out.
    planes: Planes,
}

/// Half of the columns of a whole frame, from an odd one on, and all of its rows.
fn half(settings: &Settings, whole: &Frame) -> Frame {
    let width = whole.width / 2;
    Frame {
        width,
        luma_stride: width,
        chroma_stride: settings.chroma_width(width),
        first_column: (whole.width / 4) | 1,
        ..*whole
    }
}

fn planes_of(settings: &Settings, frame: &Frame) -> Planes {
    Planes::filled(
        frame.luma_length(),
        frame.chroma_length(settings),
        UNWRITTEN,
    )
}

fn cut_out(settings: &Settings, window: &Frame, source: &[u16]) -> Vec<u16> {
    let pixel = settings.channel_count();
    let rows = source.chunks_exact(window.source_stride);
    rows.flat_map(|row| &row[window.first_column * pixel..][..window.width * pixel])
        .copied()
        .collect()
}

impl Timed for Sensor {
    type Candidate = Candidate;

    /// Before the first round the window is seen to have the planes of its pixels cut out, and the check to accept them.
    fn new(case: &Case) -> Sensor {
        let settings = case.settings;
        let whole = Frame::padded(&settings, case.width, case.height, [case.padding; 3]);
        let window = half(&settings, &whole);
        let source = random_samples(&settings, whole.source_length());
        let mut sensor = Sensor {
            settings,
            whole,
            whole_planes: planes_of(&settings, &whole),
            window,
            cut_out: Frame::padded(&settings, window.width, window.height, [0; 3]),
            cut_out_source: cut_out(&settings, &window, &source),
            planes: planes_of(&settings, &window),
            source,
        };
        assert!(
            sensor.write_the_same(Candidate::CutOut, Candidate::Window),
            "{settings} {window}: the planes differ"
        );
        for candidate in TIMED {
            sensor.run(candidate);
        }
        sensor
    }

    fn planes(&mut self) -> &mut Planes {
        &mut self.planes
    }

    fn run(&mut self, candidate: Candidate) {
        let (settings, source) = (&self.settings, &self.source);
        let refusal = match candidate {
            Candidate::Whole => {
                ours::convert(settings, &self.whole, source, &mut self.whole_planes).refusal
            }
            Candidate::Window => {
                ours::convert(settings, &self.window, source, &mut self.planes).refusal
            }
            Candidate::CutOut => {
                let source = &self.cut_out_source;
                ours::convert(settings, &self.cut_out, source, &mut self.planes).refusal
            }
            Candidate::CheckWhole => judged(settings, &self.whole, source, &self.whole_planes),
            Candidate::CheckWindow => judged(settings, &self.window, source, &self.planes),
        };
        assert_eq!(refusal, 0, "{settings} {}: refused", self.window);
    }
}

/// The number of the refusal; without one the planes are accepted.
fn judged(settings: &Settings, frame: &Frame, source: &[u16], planes: &Planes) -> u32 {
    let answer = ours::check(settings, frame, source, planes);
    assert_eq!(answer.wrong, 0, "{settings} {frame}: not accepted");
    answer.refusal
}

fn print_row(case: &Case, times: &Times<Candidate>) {
    let [whole, window, check_whole, check_window] =
        TIMED.map(|candidate| times.milliseconds(candidate));
    println!(
        "| {} | {}×{} | {whole:.2} | {window:.2} | {:.2} | {check_whole:.2} | {check_window:.2} | {:.2} |",
        SUBSAMPLINGS[case.settings.subsampling as usize],
        case.width,
        case.height,
        2.0 * window / whole,
        2.0 * check_window / check_whole,
    );
}

pub fn print() {
    println!(
        "
A window of half of the columns, from an odd one on, and the whole sensor, at 10 bits, Rgb. A ratio is that of the times of one pixel:

| subsampling | sensor | whole, ms | window, ms | window/whole, a pixel | check of the whole, ms | check of the window, ms | window/whole, a pixel |
|---|---|---|---|---|---|---|---|"
    );
    let cases = cases::windows();
    let best = rounds::best_times::<Sensor>(&cases, &TIMED);
    for (case, times) in cases.iter().zip(&best) {
        print_row(case, times);
    }
}

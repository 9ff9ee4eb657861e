//! One line of the table: a depth and a range.
use super::shares::Shares;
use super::{at_fifteen, offered, overflow};
use crate::draw::{self, Samples, FLAT};
use crate::frame::{Frame, Planes};
use crate::matrices;
use crate::ours;
use crate::random::Random;
use crate::raw::CheckedNumbers;
use crate::settings::{Settings, RANGES};
use crate::theirs;

/// Even, so that the fault of odd widths is not met.
const RANDOM_SIZE: (usize, usize) = (256, 128);
const RANDOM_FRAMES: usize = 4;
const EXTREME_SIZE: (usize, usize) = (2, 2);
/// How often each kind of an extreme frame is drawn.
const EXTREME_FRAMES: usize = 4;

/// A frame of the crate that check does not accept.
struct NotAccepted {
    settings: Settings,
    frame: Frame,
    samples: Samples,
    checked: CheckedNumbers,
    has_pixel_outside: bool,
}

#[derive(Default)]
struct Accepted {
    frames: usize,
    accepted: usize,
}

pub struct Line {
    depth: u32,
    range: u32,
    luma: Shares,
    chroma: Shares,
    random: Accepted,
    extreme: Accepted,
    not_accepted: Vec<NotAccepted>,
    refused: Vec<String>,
}

/// Both sides' planes of one frame, and the library's verdict on the crate's.
struct Outcome {
    ours: Planes,
    theirs: Planes,
    is_accepted: bool,
}

impl Line {
    pub fn worked_out(depth: u32, range: u32, random: &mut Random) -> Line {
        let mut line = Line {
            depth,
            range,
            luma: Shares::default(),
            chroma: Shares::default(),
            random: Accepted::default(),
            extreme: Accepted::default(),
            not_accepted: Vec::new(),
            refused: Vec::new(),
        };
        for matrix in matrices::named() {
            let settings = matrices::with(&offered(depth, range), matrix);
            if ours::settle(&settings).refusal != 0 {
                line.refused.push(settings.matrix_name());
                continue;
            }
            for subsampling in 0..3 {
                for channels in 0..2 {
                    let settings = Settings {
                        subsampling,
                        channels,
                        ..settings
                    };
                    line.run_random(&settings, random);
                    line.run_extremes(&settings, random);
                }
            }
        }
        line
    }

    fn run_random(&mut self, settings: &Settings, random: &mut Random) {
        for _ in 0..RANDOM_FRAMES {
            let outcome = self.convert(settings, RANDOM_SIZE, Samples::Any, random);
            let Outcome { ours, theirs, .. } = &outcome;
            self.luma.add(settings, &ours.luma, &theirs.luma);
            self.chroma.add(settings, &ours.chroma, &theirs.chroma);
            self.random.frames += 1;
            self.random.accepted += usize::from(outcome.is_accepted);
        }
    }

    fn run_extremes(&mut self, settings: &Settings, random: &mut Random) {
        for samples in FLAT.into_iter().chain([Samples::Ends, Samples::NearEnds]) {
            for _ in 0..EXTREME_FRAMES {
                let outcome = self.convert(settings, EXTREME_SIZE, samples, random);
                self.extreme.frames += 1;
                self.extreme.accepted += usize::from(outcome.is_accepted);
            }
        }
    }

    fn convert(
        &mut self,
        settings: &Settings,
        (width, height): (usize, usize),
        samples: Samples,
        random: &mut Random,
    ) -> Outcome {
        let frame = Frame::padded(settings, width, height, [0; 3]);
        let source = draw::source(settings, &frame, samples, random);
        let mut ours = Planes::filled(frame.luma_length(), frame.chroma_length(settings), 0);
        let mut theirs = ours.clone();
        let refusal = ours::convert(settings, &frame, &source, &mut ours).refusal;
        let fifteen = at_fifteen(settings);
        theirs::convert(&fifteen, &frame, &source, &mut theirs);
        let checked = ours::check(settings, &frame, &source, &theirs);
        assert_eq!((refusal, checked.refusal), (0, 0), "{settings} is settled");
        let is_accepted = checked.wrong == 0;
        if !is_accepted {
            self.not_accepted.push(NotAccepted {
                settings: *settings,
                frame,
                samples,
                checked,
                has_pixel_outside: overflow::is_met(&fifteen, &source),
            });
        }
        Outcome {
            ours,
            theirs,
            is_accepted,
        }
    }

    pub fn print(&self) {
        let refused = match self.refused.is_empty() {
            true => "none".to_string(),
            false => self.refused.join(", "),
        };
        println!(
            "| {} | {} | {} | {} | {} of {} | {} of {} | {refused} |",
            self.depth,
            RANGES[self.range as usize],
            self.luma,
            self.chroma,
            self.random.accepted,
            self.random.frames,
            self.extreme.accepted,
            self.extreme.frames
        );
    }

    /// How many frames were not accepted without a pixel whose sum or code is outside.
    pub fn print_not_accepted(&self) -> usize {
        let is_unexplained = |frame: &&NotAccepted| !frame.has_pixel_outside;
        let unexplained = self.not_accepted.iter().filter(is_unexplained).count();
        if let Some(first) = self.not_accepted.first() {
            let place = first.checked.place;
            let plane = ["luma", "chroma"][place.plane as usize];
            println!(
                "not accepted at depth {}, {}: {} frames, {} of them with a pixel whose sum or code is outside",
                self.depth,
                RANGES[self.range as usize],
                self.not_accepted.len(),
                self.not_accepted.len() - unexplained
            );
            println!(
                "  the first: {}, {}, {:?}, wrong at {plane} row {} element {}",
                first.settings, first.frame, first.samples, place.row, place.element
            );
        }
        unexplained
    }
}

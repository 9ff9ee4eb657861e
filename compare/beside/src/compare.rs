//! The planes of the crate's loops beside the library's, at every precision from 1 to 13 and in every combination.
mod cells;
mod inputs;
mod tally;

use crate::coverage::Coverage;
use crate::difference::{Difference, Differences};
use crate::draw;
use crate::fault;
use crate::frame::{Frame, Planes};
use crate::matrices::{self, Matrix};
use crate::ours;
use crate::random::Random;
use crate::settings::Settings;
use crate::theirs::{self, PlaneChecks, WeightType};
use crate::weights;
use cells::Cells;
use inputs::{LARGE, PADDING};
use tally::Tally;

const SEED: u64 = 273;
const PASSES: usize = 8;
/// One frame in this many is drawn once more with any matrix, refused or not.
const ANY_MATRIX: usize = 16;

struct Comparison {
    random: Random,
    matrices: Vec<Matrix>,
    sizes: Vec<(usize, usize)>,
    tally: Tally,
    cells: Cells,
    coverage: Coverage,
    differences: Differences,
}

/// A frame with its source and its planes before.
struct Input {
    settings: Settings,
    frame: Frame,
    source: Vec<u16>,
    before: Planes,
}

impl Comparison {
    fn new() -> Comparison {
        let mut random = Random::new(SEED);
        let mut sizes = inputs::small_sizes();
        sizes.extend(LARGE);
        Comparison {
            matrices: matrices::all(&mut random),
            random,
            coverage: Coverage::new(inputs::factors(sizes.len())),
            cells: Cells::new(sizes.len() - LARGE.len()),
            sizes,
            tally: Tally::default(),
            differences: Differences::default(),
        }
    }

    /// Every layout at every small size and at one of the large ones.
    fn run_layouts(&mut self, settings: Settings) {
        let settled = matrices::settled(&settings, &self.matrices);
        if settled.is_empty() {
            self.tally.without_matrix.push(settings);
        }
        let small = self.sizes.len() - LARGE.len();
        for layout in inputs::layouts(settings) {
            let large = small + self.random.below(LARGE.len());
            for size in (0..small).chain([large]) {
                if !settled.is_empty() {
                    let matrix = self.random.one_of(&settled);
                    self.run_frame(matrices::with(&layout, matrix), size);
                }
                if self.random.below(ANY_MATRIX) == 0 {
                    let matrix = self.random.one_of(&self.matrices);
                    self.run_frame(matrices::with(&layout, matrix), size);
                }
            }
        }
    }

    fn run_frame(&mut self, settings: Settings, size: usize) {
        let random = &mut self.random;
        let padding = [0; 3].map(|_| random.one_of(&PADDING));
        let samples = draw::samples(random);
        let (width, height) = self.sizes[size];
        let frame = Frame::padded(&settings, width, height, padding);
        let source = draw::source(&settings, &frame, samples, random);
        let before = Planes {
            luma: random.words(frame.luma_length()),
            chroma: random.words(frame.chroma_length(&settings)),
        };
        let input = Input {
            settings,
            frame,
            source,
            before,
        };
        if self.compare(&input) {
            self.cells.count(&settings, size);
            let values = inputs::values(&settings, size, samples, padding);
            self.coverage.meet(&values);
        }
    }

    /// Whether the library did not refuse the frame.
    fn compare(&mut self, input: &Input) -> bool {
        let Input {
            settings,
            frame,
            source,
            before,
        } = input;
        let mut ours = before.clone();
        let refusal = ours::convert(settings, frame, source, &mut ours).refusal;
        if refusal != 0 {
            self.tally.refuse(refusal);
            self.expect("ours refused, planes", input, before, ours);
            return false;
        }
        let predicted = fault::predicted(settings, frame, &ours, before);
        let mut theirs = before.clone();
        theirs::convert(settings, frame, source, &mut theirs);
        self.tally.count(settings, frame, &ours, &theirs);
        self.expect("crate", input, &predicted, theirs);
        if let Some(planes) = convert_with_i32(input) {
            self.tally.with_i32 += 1;
            self.expect("crate with i32 weights", input, &predicted, planes);
        }
        true
    }

    fn expect(&mut self, what: &'static str, input: &Input, expected: &Planes, found: Planes) {
        if *expected != found {
            self.differences.add(Difference {
                what,
                settings: input.settings,
                frame: input.frame,
                source: input.source.clone(),
                expected: expected.clone(),
                found,
            });
        }
    }

    fn print(&self) {
        self.tally.print();
        self.cells.print();
        let (pairs, missing) = self.coverage.missing();
        println!("pairs of values met: {} of {pairs}", pairs - missing.len());
        for pair in missing.iter().take(20) {
            println!("  not met: {pair}");
        }
        self.differences.print();
    }
}

/// The planes with weights of i32, where the loops were built for that too.
fn convert_with_i32(input: &Input) -> Option<Planes> {
    let mut planes = input.before.clone();
    let answer = theirs::convert_with(
        &input.settings,
        &input.frame,
        &input.source,
        &mut planes,
        WeightType::I32,
        PlaneChecks::LeftOut,
    )?;
    answer.expect("the source has its exact length");
    Some(planes)
}

pub fn run() -> bool {
    let mut comparison = Comparison::new();
    let are_weights_equal = weights::run(&mut comparison.random);
    for _ in 0..PASSES {
        for precision in 1..=13 {
            for depth in 10..=16 {
                for range in 0..2 {
                    comparison.run_layouts(Settings {
                        precision,
                        depth,
                        range,
                        ..Settings::J
                    });
                }
            }
        }
    }
    comparison.print();
    are_weights_equal && comparison.differences.is_empty()
}

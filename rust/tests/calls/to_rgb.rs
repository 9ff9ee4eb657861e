//! Back to RGB: random planes, well formed and not, every element of every buffer compared; and all named settings.
use super::call::Call;
use super::counts::{refused, Counts};
use super::frame_counts;
use super::library::{to_rgb, By};
use super::random::Random;
use super::rgb_counts;
use super::settings::every_named;
use super::{malformed, rgb_call};
use crate::reference::{word, Frame, Refusal, Settings};

const CALLS: usize = 50_000;
const MALFORMED_CALLS: usize = 10_000;
/// Rows, and pixels in a row, of the frame that each of the named settings is tried with.
const SIDE: usize = 12;

/// The answer and every element held against the reference, which leaves both planes as they are.
fn to_rgb_as_expected(by: By, call: &Call) -> Result<(), Refusal> {
    let mut expected = call.clone();
    let mut got = call.clone();
    let answer = expected.turn_back();
    assert_eq!(to_rgb(by, &mut got), answer, "{by:?} {}", call.told());
    got.assert_buffers(&expected, || format!("{by:?} {}", call.told()));
    answer
}

fn compare(random: &mut Random, call: &Call, counts: &mut Counts) {
    let by = By::draw(random, &call.settings);
    let answer = to_rgb_as_expected(by, call);
    counts.add(format!("by {by:?}"));
    counts.add_many("elements compared", call.elements());
    frame_counts::count(call, 1, answer.err(), counts);
    rgb_counts::count(call, answer, counts);
}

#[test]
fn random_planes() {
    let random = &mut Random::new(7);
    let mut counts = Counts::default();
    for _ in 0..CALLS {
        let call = rgb_call::draw(random);
        compare(random, &call, &mut counts);
    }
    counts.print(&format!("back to RGB, {CALLS} calls"));
    counts.assert_refusals(&[1, 2, 3, 5, 6, 7, 8, 9, 12, 13, 18]);
    frame_counts::assert_met(&counts);
    rgb_counts::assert_done(&counts);
    counts.assert_at_least(1_000, &[refused(13)]);
    counts.assert_reached(&["by Crate", "by Raw"]);
}

/// Each kind of words that are not well formed, in calls that are sound or damaged otherwise.
#[test]
fn first_malformed() {
    let random = &mut Random::new(8);
    let mut counts = Counts::default();
    for _ in 0..MALFORMED_CALLS {
        let mut call = rgb_call::draw(random);
        let malformed = random.pick(&malformed::ALL);
        if malformed.make(random, &mut call) {
            counts.add(format!("{malformed:?}"));
        }
        compare(random, &call, &mut counts);
    }
    counts.print(&format!("words not well formed, {MALFORMED_CALLS} calls"));
    counts.assert_at_least(1_000, &malformed::ALL.map(|kind| format!("{kind:?}")));
    counts.assert_at_least(2_500, &[refused(13)]);
    rgb_counts::assert_malformed(&counts);
}

/// Any codes at 4:4:4, so that each pixel has three of its own.
fn any_codes(random: &mut Random, settings: Settings) -> Call {
    let frame = Frame {
        width: SIDE,
        height: SIDE,
        source_stride: SIDE * 3,
        luma_stride: SIDE,
        chroma_stride: SIDE * 2,
        first_column: 0,
        first_row: 0,
        source_rows: SIDE,
    };
    let mut plane = |length: usize| {
        let words = (0..length).map(|_| {
            let code = random.below(settings.most() as usize + 1);
            word(&settings, code as i128)
        });
        words.collect::<Vec<u16>>()
    };
    Call {
        luma: plane(SIDE * SIDE),
        chroma: plane(SIDE * SIDE * 2),
        source: vec![7; SIDE * SIDE * 3],
        settings,
        frame,
    }
}

#[test]
fn all_named_settings() {
    let random = &mut Random::new(9);
    let mut counts = Counts::default();
    for settings in every_named(random) {
        let call = any_codes(
            random,
            Settings {
                subsampling: 2,
                channels: 0,
                ..settings
            },
        );
        let answer = to_rgb_as_expected(By::Crate, &call);
        assert_eq!(to_rgb_as_expected(By::Raw, &call), answer);
        rgb_counts::count(&call, answer, &mut counts);
    }
    counts.print("back to RGB, 910 named settings, each by the crate and raw");
    counts.assert_refusals(&[5]);
    counts.assert_at_least(800, &[rgb_counts::DONE]);
}

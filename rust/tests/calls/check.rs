//! Check: frames as the reference converts them, then changed; and frames never written.
use super::call::Call;
use super::change::{Change, ALL};
use super::counts::{refused, Counts};
use super::frame_counts;
use super::library::{check, By};
use super::random::Random;
use crate::reference::{Frame, Refusal, Sample, Settings};

const CALLS: usize = 60_000;

/// The answer held against the reference; no element changes.
pub fn check_as_expected(
    by: By,
    call: &Call,
    changes: &[Change],
) -> Result<Option<Sample>, Refusal> {
    let before = call.clone();
    let expected = call.check();
    assert_eq!(
        check(by, call),
        expected,
        "{by:?} {changes:?} {}",
        call.told()
    );
    assert!(
        call.source == before.source && call.luma == before.luma && call.chroma == before.chroma
    );
    expected
}

/// Makes one change mostly, so that its own answer shows, or several, so that the first wrong sample is one of many. Gives the
/// changes that were made.
fn change(random: &mut Random, call: &mut Call) -> Vec<Change> {
    let count = match random.below(8) {
        0 => 0,
        1..=5 => 1,
        _ => 2 + random.below(3),
    };
    let mut changes: Vec<Change> = (0..count).map(|_| random.pick(&ALL)).collect();
    changes.retain(|change| change.make(random, call));
    changes
}

fn told(answer: Result<Option<Sample>, Refusal>) -> String {
    match answer {
        Ok(None) => "accepted".to_string(),
        Ok(Some(Sample { plane: 0, .. })) => "wrong luma".to_string(),
        Ok(Some(_)) => "wrong chroma".to_string(),
        Err(refusal) => refused(refusal.number),
    }
}

fn compare(random: &mut Random, mut call: Call, counts: &mut Counts) {
    let changes = match call.convert() {
        Ok(()) if !call.settings.is_custom() => change(random, &mut call),
        _ => Vec::new(),
    };
    let by = By::draw(random, &call.settings);
    let answer = check_as_expected(by, &call, &changes);
    counts.add(told(answer));
    frame_counts::count(&call, 1, answer.err(), counts);
    counts.add(format!("by {by:?}"));
    counts.add_many("elements judged", call.elements());
    if let ([change], Ok(_)) = (&changes[..], answer) {
        counts.add(format!("{change:?}, {}", told(answer)));
    }
}

#[test]
fn random_frames() {
    let random = &mut Random::new(4);
    let mut counts = Counts::default();
    for _ in 0..CALLS {
        let call = Call::draw(random);
        compare(random, call, &mut counts);
    }
    counts.print(&format!("check, {CALLS} calls"));
    counts.assert_refusals(&[1, 2, 3, 5, 6, 7, 8, 9, 10, 12, 18]);
    frame_counts::assert_met(&counts);
    counts.assert_reached(&[
        "accepted",
        "wrong luma",
        "wrong chroma",
        "by Crate",
        "by Raw",
    ]);
    for change in [
        "StaleRow",
        "StaleRest",
        "FirstBeyond",
        "Malformed",
        "AnyWord",
        "Source",
    ] {
        counts.assert_reached(&[
            &format!("{change}, wrong luma"),
            &format!("{change}, wrong chroma"),
        ]);
    }
    for change in ["LastWithin", "Padding", "Unread"] {
        counts.assert_reached(&[&format!("{change}, accepted")]);
    }
}

/// One pixel at 10 bits, P = 1, Bt601, full, where the tolerance is 783.095.
fn coarse(pixel: [u16; 3]) -> Call {
    let settings = Settings {
        depth: 10,
        precision: 1,
        matrix: 0,
        kr: 0.0,
        kb: 0.0,
        range: 1,
        subsampling: 2,
        order: 0,
        packing: 1,
        byte_order: 1,
        channels: 0,
    };
    let frame = Frame {
        width: 1,
        height: 1,
        source_stride: 3,
        luma_stride: 1,
        chroma_stride: 2,
        first_column: 0,
        first_row: 0,
        source_rows: 1,
    };
    Call {
        settings,
        frame,
        source: pixel.to_vec(),
        luma: vec![7],
        chroma: vec![7, 7],
    }
}

/// Exact luma is 11.905 and 1015.095 here, so that the named code lies at exactly the tolerance.
#[test]
fn every_word_with_one_at_equality() {
    for (pixel, equal) in [([30, 5, 0], 795), ([1023, 1014, 1000], 232)] {
        let mut call = coarse(pixel);
        call.convert().unwrap();
        for word in 0..=u16::MAX {
            call.luma[0] = word;
            let expected = call.check();
            assert_eq!(check(By::Crate, &call), expected, "{pixel:?} {word}");
            assert!(word != equal || expected == Ok(None));
        }
    }
}

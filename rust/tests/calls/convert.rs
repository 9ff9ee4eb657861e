//! Convert: random frames, every element of every buffer compared; then what was written is checked.
use super::call::Call;
use super::counts::{refused, Counts};
use super::frame_counts;
use super::library::{check, convert, By};
use super::random::Random;
use crate::reference::Refusal;

const CALLS: usize = 44_000;

/// The answer and every element held against the reference. Gives the answer, and the buffers after the call.
pub fn convert_as_expected(by: By, call: &Call) -> (Result<(), Refusal>, Call) {
    let mut expected = call.clone();
    let mut got = call.clone();
    let answer = expected.convert();
    assert_eq!(convert(by, &mut got), answer, "{by:?} {}", call.told());
    got.assert_buffers(&expected, || format!("{by:?} {}", call.told()));
    (answer, got)
}

fn compare(random: &mut Random, call: Call, counts: &mut Counts) {
    let by = By::draw(random, &call.settings);
    let (answer, got) = convert_as_expected(by, &call);
    counts.add(format!("by {by:?}"));
    counts.add_many("elements compared", call.elements());
    frame_counts::count(&call, 1, answer.err(), counts);
    match answer {
        Err(refusal) => counts.add(refused(refusal.number)),
        Ok(()) if call.settings.is_custom() => counts.add("done, custom pair"),
        Ok(()) => {
            counts.add("done, named matrix");
            assert_eq!(check(by, &got), Ok(None), "not accepted: {}", call.told());
            counts.add("done and accepted by check");
        }
    }
}

#[test]
fn random_frames() {
    let random = &mut Random::new(3);
    let mut counts = Counts::default();
    for _ in 0..CALLS {
        let call = Call::draw(random);
        compare(random, call, &mut counts);
    }
    counts.print(&format!("convert, {CALLS} calls"));
    counts.assert_refusals(&[1, 2, 3, 5, 7, 8, 9, 10, 12, 18]);
    frame_counts::assert_met(&counts);
    counts.assert_reached(&[
        "done, custom pair",
        "done and accepted by check",
        "by Crate",
        "by Raw",
    ]);
}

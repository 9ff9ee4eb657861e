//! Sources with samples above m, in calls that are sound or damaged otherwise: convert and check name the first of them.
use super::buffers::most;
use super::call::Call;
use super::check::check_as_expected;
use super::convert::convert_as_expected;
use super::counts::{refused, Counts};
use super::excess;
use super::library::By;
use super::random::Random;
use crate::reference::{pixel_elements, SourcePlace};

const CALLS: usize = 48_000;
const COLOURS: [&str; 3] = ["red", "green", "blue"];
const LAYOUTS: [&str; 4] = ["Rgb", "Rgba", "Bgra", "Bgr"];
const AFTER_UNREAD: &str = "after unread samples above m";
const OF_WINDOW: &str = "in a window";
const INSIDE: &str = "in a later row and a later pixel";
const SAME_BY_CHECK: &str = "the same by check";

/// Planes that were written before the samples went above m, or that were not.
fn draw(random: &mut Random) -> Call {
    let mut call = Call::draw(random);
    if random.one_in(2) {
        let _ = call.convert();
    }
    call
}

/// Whether a sample before the named pixel is above m: it is alpha or outside the window, since the named one is the first.
fn is_after_unread(call: &Call, place: &SourcePlace) -> bool {
    let elements = pixel_elements(&call.settings) as usize;
    let row = call.frame.first_row + place.row;
    let column = call.frame.first_column + place.pixel;
    let pixel = row * call.frame.source_stride + column * elements;
    let most = most(&call.settings);
    call.source[..pixel].iter().any(|&sample| sample > most)
}

fn count_place(call: &Call, place: &SourcePlace, counts: &mut Counts) {
    counts.add(COLOURS[place.channel]);
    counts.add(LAYOUTS[call.settings.channels as usize]);
    if is_after_unread(call, place) {
        counts.add(AFTER_UNREAD);
    }
    if place.row > 0 && place.pixel > 0 {
        counts.add(INSIDE);
    }
    if call.frame.first_row > 0 && call.frame.first_column > 0 {
        counts.add(OF_WINDOW);
    }
}

/// Answers, places and planes as the reference has them. Where check asks about the source too, its refusal is convert's.
fn compare(random: &mut Random, mut call: Call, counts: &mut Counts) {
    let excess = random.pick(&excess::ALL);
    if excess.make(random, &call.settings, &call.frame, &mut call.source) {
        counts.add("calls with samples above m");
    }
    let by = By::draw(random, &call.settings);
    let (converted, _) = convert_as_expected(by, &call);
    let checked = check_as_expected(by, &call, &[]);
    let Err(refusal) = converted else {
        return;
    };
    counts.add(refused(refusal.number));
    if let Some(place) = refusal.place {
        counts.add(format!("by {by:?}"));
        counts.add(format!("{excess:?}"));
        count_place(&call, &place, counts);
        if !call.settings.is_custom() {
            assert_eq!(checked, Err(refusal), "{}", call.told());
            counts.add(SAME_BY_CHECK);
        }
    }
}

#[test]
fn first_sample_above_m() {
    let random = &mut Random::new(5);
    let mut counts = Counts::default();
    for _ in 0..CALLS {
        let call = draw(random);
        compare(random, call, &mut counts);
    }
    counts.print(&format!("samples above m, {CALLS} calls of each service"));
    counts.assert_refusals(&[1, 2, 3, 5, 7, 8, 9, 10, 12, 18]);
    counts.assert_at_least(20_000, &[&refused(10)]);
    counts.assert_at_least(15_000, &[SAME_BY_CHECK, "by Crate"]);
    counts.assert_at_least(5_000, &["by Raw", AFTER_UNREAD, INSIDE, OF_WINDOW]);
    counts.assert_at_least(5_000, &LAYOUTS);
    counts.assert_at_least(3_000, &COLOURS);
    counts.assert_at_least(4_000, &excess::ALL.map(|excess| format!("{excess:?}")));
}

//! Settle: random settings, and all 910 named ones.
use super::counts::{refused, Counts};
use super::library::{settle, By};
use super::random::Random;
use super::settings::{every_named, spoil, usable};
use crate::reference::{self, Settings};

const CALLS: usize = 200_000;

fn draw(random: &mut Random) -> Settings {
    let mut settings = usable(random);
    let damages = match random.below(10) {
        0..=4 => 0,
        5..=7 => 1,
        _ => 2,
    };
    for _ in 0..damages {
        spoil(random, &mut settings);
    }
    settings
}

fn compare(by: By, settings: &Settings, counts: &mut Counts) {
    let expected = reference::settle(settings);
    assert_eq!(settle(by, settings), expected, "{by:?} {settings:?}");
    counts.add(match expected {
        Ok(_) if settings.is_custom() => "weights of a custom pair".to_string(),
        Ok(_) => "weights of a named matrix".to_string(),
        Err(number) => refused(number),
    });
    counts.add(format!("by {by:?}"));
}

#[test]
fn random_settings() {
    let random = &mut Random::new(1);
    let mut counts = Counts::default();
    for _ in 0..CALLS {
        let settings = draw(random);
        compare(By::draw(random, &settings), &settings, &mut counts);
    }
    counts.print(&format!("settle, {CALLS} calls"));
    counts.assert_refusals(&[1, 2, 3, 5, 18]);
    counts.assert_reached(&[
        "weights of a custom pair",
        "weights of a named matrix",
        "by Crate",
        "by Raw",
    ]);
}

#[test]
fn all_named_settings() {
    let random = &mut Random::new(2);
    let mut counts = Counts::default();
    for settings in every_named(random) {
        compare(By::Crate, &settings, &mut counts);
        compare(By::Raw, &settings, &mut counts);
    }
    counts.print("settle, 910 named settings, each by the crate and raw");
    counts.assert_refusals(&[5]);
}

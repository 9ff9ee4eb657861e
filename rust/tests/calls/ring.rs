//! Rings: random ones, valid and damaged, every element of every buffer compared; and a ring of one frame beside convert.
use super::convert::convert_as_expected;
use super::counts::{refused, Counts};
use super::frame_counts;
use super::library::{convert_ring, By};
use super::random::Random;
use super::ring_call::{RingCall, REFUSED_COUNTS};
use crate::reference::RingEnded;

const CALLS: usize = 44_000;
const REFUSED_FRAMES: [&str; 4] = [
    "refusal 10 of the only frame",
    "refusal 10 of the first frame",
    "refusal 10 of a frame between",
    "refusal 10 of the last frame",
];
const WRONG_LENGTHS: [&str; 3] = [
    "refusal 9, a frame short",
    "refusal 9, a frame long",
    "refusal 9, one frame of several",
];

/// The answer and every element held against the reference. Gives the answer, and the buffers after the call.
fn ring_as_expected(by: By, ring: &RingCall) -> (Result<(), RingEnded>, RingCall) {
    let mut expected = ring.clone();
    let mut got = ring.clone();
    let answer = expected.convert();
    assert_eq!(convert_ring(by, &mut got), answer, "{by:?} {}", ring.told());
    got.call
        .assert_buffers(&expected.call, || format!("{by:?} {}", ring.told()));
    (answer, got)
}

/// "One frame in the ring gives convert's outcome."
fn assert_as_one_frame(by: By, ring: &RingCall, answer: Result<(), RingEnded>, got: &RingCall) {
    let (alone, converted) = convert_as_expected(by, &ring.call);
    assert_eq!(answer.map_err(|ended| ended.refusal), alone);
    got.call.assert_buffers(&converted, || ring.told());
}

/// Which frame of the ring was refused.
fn refused_frame(written: usize, count: usize) -> &'static str {
    let [only, first, between, last] = REFUSED_FRAMES;
    match written {
        _ if count == 1 => only,
        0 => first,
        _ if written == count - 1 => last,
        _ => between,
    }
}

fn refused_count(count: usize) -> String {
    format!("refusal 11, count {count}")
}

fn count_ended(ring: &RingCall, ended: &RingEnded, counts: &mut Counts) {
    let count = ring.count;
    let [a_frame_short, a_frame_long, one_of_several] = WRONG_LENGTHS;
    counts.add(refused(ended.refusal.number));
    match ended.refusal.number {
        9 if ring.holds(count - 1) => counts.add(a_frame_short),
        9 if ring.holds(count + 1) => counts.add(a_frame_long),
        9 if ring.holds(1) => counts.add(one_of_several),
        10 => {
            counts.add(refused_frame(ended.written, count));
            counts.add_many("frames before a refused one", ended.written);
            counts.add_many("frames after a refused one", count - 1 - ended.written);
        }
        11 => counts.add(refused_count(count)),
        _ => {}
    }
}

fn compare(random: &mut Random, ring: &RingCall, counts: &mut Counts) {
    let by = By::draw(random, &ring.call.settings);
    let (answer, got) = ring_as_expected(by, ring);
    if ring.count == 1 {
        assert_as_one_frame(by, ring, answer, &got);
        counts.add("rings of one frame beside convert");
    }
    counts.add(format!("by {by:?}"));
    counts.add_many("elements compared", ring.call.elements());
    let refusal = answer.err().map(|ended| ended.refusal);
    frame_counts::count(&ring.call, ring.count, refusal, counts);
    match answer {
        Err(ended) => count_ended(ring, &ended, counts),
        Ok(()) => {
            counts.add("done");
            counts.add(match ring.count {
                1 => "done, 1 frame",
                2..=8 => "done, 2 to 8 frames",
                9..=63 => "done, 9 to 63 frames",
                _ => "done, 64 frames",
            });
        }
    }
}

#[test]
fn random_rings() {
    let random = &mut Random::new(6);
    let mut counts = Counts::default();
    for _ in 0..CALLS {
        let ring = RingCall::draw(random);
        compare(random, &ring, &mut counts);
    }
    counts.print(&format!("rings, {CALLS} calls"));
    counts.assert_refusals(&[1, 2, 3, 5, 7, 8, 9, 10, 11, 12, 18]);
    frame_counts::assert_met(&counts);
    counts.assert_at_least(500, &["done, 1 frame", "done, 64 frames"]);
    counts.assert_at_least(300, &REFUSED_FRAMES);
    counts.assert_at_least(100, &WRONG_LENGTHS);
    counts.assert_at_least(100, &REFUSED_COUNTS.map(refused_count));
    counts.assert_reached(&["by Crate", "by Raw"]);
}

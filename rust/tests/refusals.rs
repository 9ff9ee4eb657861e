//! Refusals as numbers, as text and as errors.
use ayresokum::{
    settle, Channel, Place, Plane, Refusal, RingEnded, Settings, SourcePlace, YuvChromaSubsampling,
    YuvRange, YuvSourceChannels, YuvStandardMatrix,
};
use std::error::Error;

const PLACE: SourcePlace = SourcePlace {
    row: 3,
    pixel: 17,
    channel: Channel::Green,
};
const IN_LUMA: Place = Place {
    plane: Plane::Luma,
    row: 3,
    element: 17,
};

/// Every refusal with its number and its text.
const ALL: [(Refusal, u32, &str); 14] = [
    (Refusal::Depth, 1, "refusal 1: depth is not 10 to 16"),
    (Refusal::Precision, 2, "refusal 2: P is not 1 to 13"),
    (
        Refusal::CustomPair,
        3,
        "refusal 3: custom pair: not (kr > 0 and kb > 0 and kg > 0, kg as worked out in f32); not-a-number counts as failing",
    ),
    (
        Refusal::WeightOff,
        4,
        "refusal 4: named matrix: some integer weight lies more than 51/100 from 2^P times its exact fraction",
    ),
    (
        Refusal::CodeOutside,
        5,
        "refusal 5: one of five codes is outside 0 to m: white's luma, Cb of full blue and of full yellow, Cr of full red and of full cyan",
    ),
    (
        Refusal::CustomUnchecked,
        6,
        "refusal 6: check only: the matrix is custom",
    ),
    (
        Refusal::Size,
        7,
        "refusal 7: width or height is 0 or over 16,384",
    ),
    (
        Refusal::Stride,
        8,
        "refusal 8: a stride is shorter than its visible row, the source's than first column + width, or over 65,536",
    ),
    (
        Refusal::Length,
        9,
        "refusal 9: a buffer's length is not exactly stride × rows, in a ring count × stride × rows",
    ),
    (
        Refusal::TooLarge(PLACE),
        10,
        "refusal 10: a visible colour sample of the source exceeds m: row 3, pixel 17, green",
    ),
    (
        Refusal::Count,
        11,
        "refusal 11: the count of frames is not 1 to 64",
    ),
    (
        Refusal::Window,
        12,
        "refusal 12: first column, first row or source rows are over 16,384, or first row + height is over the source rows",
    ),
    (
        Refusal::Malformed(IN_LUMA),
        13,
        "refusal 13: a visible sample of a plane is not well formed: luma, row 3, element 17",
    ),
    (
        Refusal::Unnamed,
        18,
        "refusal 18: a number names no case of its enumeration",
    ),
];

#[test]
fn numbers_and_texts() {
    for (refusal, number, text) in ALL {
        assert_eq!(refusal.number(), number);
        assert_eq!(refusal.to_string(), text);
    }
}

#[test]
fn places() {
    let of = |channel| SourcePlace { channel, ..PLACE }.to_string();
    assert_eq!(of(Channel::Red), "row 3, pixel 17, red");
    assert_eq!(of(Channel::Green), "row 3, pixel 17, green");
    assert_eq!(of(Channel::Blue), "row 3, pixel 17, blue");
}

#[test]
fn places_in_planes() {
    let of = |plane| Place { plane, ..IN_LUMA }.to_string();
    assert_eq!(of(Plane::Luma), "luma, row 3, element 17");
    assert_eq!(of(Plane::Chroma), "chroma, row 3, element 17");
}

#[test]
fn rings() {
    let told = |written, refusal| RingEnded { written, refusal }.to_string();
    let too_large =
        "refusal 10: a visible colour sample of the source exceeds m: row 3, pixel 17, green";
    for (written, before) in [
        (0, "no frame was written; frame 0: "),
        (1, "1 frame was written; frame 1: "),
        (3, "3 frames were written; frame 3: "),
    ] {
        assert_eq!(
            told(written, Refusal::TooLarge(PLACE)),
            format!("{before}{too_large}")
        );
    }
    assert_eq!(
        told(0, Refusal::Count),
        "no frame was written: refusal 11: the count of frames is not 1 to 64"
    );
}

fn settled(depth: u32) -> Result<i32, Box<dyn Error>> {
    let settings = Settings::new(
        depth,
        YuvStandardMatrix::Bt709,
        YuvRange::Limited,
        YuvChromaSubsampling::Yuv420,
        YuvSourceChannels::Rgb,
    );
    Ok(settle(&settings)?.yr)
}

#[test]
fn as_errors() {
    assert_eq!(settled(10).unwrap(), 1491);
    let error = settled(9).unwrap_err();
    assert_eq!(error.to_string(), ALL[0].2);
    assert!(error.source().is_none());
    assert_eq!(error.downcast_ref(), Some(&Refusal::Depth));
}

/// Its own text has the refusal's, so that no other error stands behind it.
#[test]
fn ring_as_error() {
    let ended = RingEnded {
        written: 2,
        refusal: Refusal::TooLarge(PLACE),
    };
    let error: Box<dyn Error> = ended.into();
    assert!(error.source().is_none());
    assert_eq!(error.downcast_ref(), Some(&ended));
}

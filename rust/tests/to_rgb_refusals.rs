//! What the way back refuses: words that are not well formed, at each end of each plane and one by one, and the order of all refusals.
use ayresokum::{
    to_rgb, Frame, Place, Plane, Refusal, Settings, YuvBytesPacking, YuvChromaSubsampling,
    YuvEndianness, YuvRange, YuvSourceChannels, YuvStandardMatrix,
};
use YuvBytesPacking::{LeastSignificantBytes, MostSignificantBytes};
use YuvChromaSubsampling::{Yuv420, Yuv422, Yuv444};
use YuvEndianness::{BigEndian, LittleEndian};

const SETTINGS: Settings = Settings::new(
    10,
    YuvStandardMatrix::Bt709,
    YuvRange::Full,
    Yuv420,
    YuvSourceChannels::Rgba,
);
/// A code that is well formed in most-significant packing, and a word that is not.
const FORMED: u16 = 300 << 6;
const ILL: u16 = FORMED | 1;
/// What an RGB buffer holds before a call.
const OLD: u16 = 7;
/// Elements past the visible ones in each row of the planes.
const PADDING: usize = 3;

const fn place(plane: Plane, row: usize, element: usize) -> Place {
    Place {
        plane,
        row,
        element,
    }
}

/// A frame of 5 × 3 pixels.
struct Recorded {
    settings: Settings,
    frame: Frame,
    luma: Vec<u16>,
    chroma: Vec<u16>,
}

impl Recorded {
    /// Every visible word is well formed, and none of padding.
    fn new(settings: Settings) -> Recorded {
        let unpadded = Frame::unpadded(&settings, 5, 3);
        let plane = |visible: usize, length: usize| {
            let row = [vec![FORMED; visible], vec![ILL; PADDING]].concat();
            row.repeat(length / visible)
        };
        let lengths = unpadded.lengths(&settings);
        Recorded {
            settings,
            frame: Frame {
                luma_stride: unpadded.luma_stride + PADDING,
                chroma_stride: unpadded.chroma_stride + PADDING,
                ..unpadded
            },
            luma: plane(unpadded.luma_stride, lengths.luma),
            chroma: plane(unpadded.chroma_stride, lengths.chroma),
        }
    }

    /// The last place of a plane.
    fn last(&self, plane: Plane) -> Place {
        let (words, stride) = match plane {
            Plane::Luma => (&self.luma, self.frame.luma_stride),
            Plane::Chroma => (&self.chroma, self.frame.chroma_stride),
        };
        place(plane, words.len() / stride - 1, stride - PADDING - 1)
    }

    fn spoil(&mut self, place: Place) {
        let (words, stride) = match place.plane {
            Plane::Luma => (&mut self.luma, self.frame.luma_stride),
            Plane::Chroma => (&mut self.chroma, self.frame.chroma_stride),
        };
        words[place.row * stride + place.element] = ILL;
    }

    /// The answer. A refusal leaves the RGB buffer as it was, and without one all of it is written, since it has no padding.
    fn to_rgb(&self) -> Result<(), Refusal> {
        let mut rgb = vec![OLD; self.frame.lengths(&self.settings).source];
        let answer = to_rgb(
            &self.settings,
            &self.frame,
            &self.luma,
            &self.chroma,
            &mut rgb,
        );
        let is_old = |&sample: &u16| sample == OLD;
        assert!(match answer {
            Ok(()) => !rgb.iter().any(is_old),
            Err(_) => rgb.iter().all(is_old),
        });
        answer
    }
}

fn with(subsampling: YuvChromaSubsampling) -> Recorded {
    Recorded::new(Settings {
        subsampling,
        ..SETTINGS
    })
}

#[test]
fn padding_is_not_judged() {
    for subsampling in [Yuv420, Yuv422, Yuv444] {
        assert_eq!(with(subsampling).to_rgb(), Ok(()), "{subsampling:?}");
    }
}

#[test]
fn first_and_last_place() {
    for (subsampling, last_of_chroma) in [
        (Yuv420, place(Plane::Chroma, 1, 5)),
        (Yuv422, place(Plane::Chroma, 2, 5)),
        (Yuv444, place(Plane::Chroma, 2, 9)),
    ] {
        let sound = with(subsampling);
        assert_eq!(sound.last(Plane::Luma), place(Plane::Luma, 2, 4));
        assert_eq!(sound.last(Plane::Chroma), last_of_chroma);
        for at in [
            place(Plane::Luma, 0, 0),
            sound.last(Plane::Luma),
            place(Plane::Chroma, 0, 0),
            sound.last(Plane::Chroma),
        ] {
            let mut recorded = with(subsampling);
            recorded.spoil(at);
            assert_eq!(recorded.to_rgb(), Err(Refusal::Malformed(at)));
        }
    }
}

/// Each word that is spoiled comes before all those spoiled until then.
#[test]
fn check_order() {
    let mut recorded = with(Yuv420);
    for at in [
        place(Plane::Chroma, 1, 5),
        place(Plane::Chroma, 1, 0),
        place(Plane::Chroma, 0, 1),
        place(Plane::Chroma, 0, 0),
        place(Plane::Luma, 2, 4),
        place(Plane::Luma, 2, 0),
        place(Plane::Luma, 1, 3),
        place(Plane::Luma, 0, 4),
    ] {
        recorded.spoil(at);
        assert_eq!(recorded.to_rgb(), Err(Refusal::Malformed(at)));
    }
}

/// "after undoing the byte exchange, most-significant packing has its low 16−d bits zero, or least-significant packing is at most m".
fn is_well_formed(settings: &Settings, word: u16) -> bool {
    let word = match settings.endianness {
        BigEndian => word.swap_bytes(),
        LittleEndian => word,
    };
    match settings.packing {
        MostSignificantBytes => word % 64 == 0,
        LeastSignificantBytes => word <= 1023,
    }
}

/// The answer for one pixel with such words of luma and of V; that of U is 0.
fn of_pixel(settings: &Settings, luma: u16, v: u16) -> Result<(), Refusal> {
    let frame = Frame::unpadded(settings, 1, 1);
    to_rgb(settings, &frame, &[luma], &[0, v], &mut [OLD; 4])
}

/// Every word in luma and in chroma, however codes are stored.
#[test]
fn every_word() {
    for (packing, endianness) in [
        (MostSignificantBytes, BigEndian),
        (MostSignificantBytes, LittleEndian),
        (LeastSignificantBytes, BigEndian),
        (LeastSignificantBytes, LittleEndian),
    ] {
        let settings = Settings {
            packing,
            endianness,
            ..SETTINGS
        };
        for word in 0..=u16::MAX {
            let expected = |place| match is_well_formed(&settings, word) {
                true => Ok(()),
                false => Err(Refusal::Malformed(place)),
            };
            let in_luma = expected(place(Plane::Luma, 0, 0));
            let in_chroma = expected(place(Plane::Chroma, 0, 1));
            assert_eq!(
                of_pixel(&settings, word, 0),
                in_luma,
                "{packing:?} {endianness:?} {word}"
            );
            assert_eq!(
                of_pixel(&settings, 0, word),
                in_chroma,
                "{packing:?} {endianness:?} {word}"
            );
        }
    }
}

/// At 16 bits every word is a code.
#[test]
fn sixteen_bits() {
    let settings = Settings {
        depth: 16,
        ..SETTINGS
    };
    assert_eq!(Recorded::new(settings).to_rgb(), Ok(()));
}

/// Everything is refused, and what is refused first is put right until nothing is.
#[test]
fn order() {
    let mut recorded = Recorded::new(Settings {
        depth: 17,
        precision: 0,
        matrix: YuvStandardMatrix::Custom(0.5, 0.5),
        ..SETTINGS
    });
    let sound = Recorded::new(SETTINGS);
    let malformed = place(Plane::Chroma, 1, 2);
    recorded.spoil(malformed);
    recorded.luma.push(FORMED);
    recorded.frame.luma_stride = 4;
    recorded.frame.source_rows = 2;
    recorded.frame.width = 0;
    let mut refused_then = |refusal: Refusal, put_right: &dyn Fn(&mut Recorded)| {
        assert_eq!(recorded.to_rgb(), Err(refusal));
        put_right(&mut recorded);
    };
    refused_then(Refusal::Depth, &|r| r.settings.depth = 10);
    refused_then(Refusal::Precision, &|r| r.settings.precision = 13);
    refused_then(Refusal::CustomPair, &|r| {
        r.settings.matrix = YuvStandardMatrix::Smpte240;
        r.settings.depth = 13;
    });
    refused_then(Refusal::CodeOutside, &|r| {
        r.settings.matrix = YuvStandardMatrix::Custom(0.25, 0.125);
        r.settings.depth = 10;
    });
    refused_then(Refusal::CustomUnchecked, &|r| {
        r.settings.matrix = SETTINGS.matrix
    });
    refused_then(Refusal::Size, &|r| r.frame.width = 5);
    refused_then(Refusal::Window, &|r| r.frame.source_rows = 3);
    refused_then(Refusal::Stride, &|r| {
        r.frame.luma_stride = sound.frame.luma_stride
    });
    refused_then(Refusal::Length, &|r| r.luma.truncate(sound.luma.len()));
    refused_then(Refusal::Malformed(malformed), &|r| {
        r.chroma.clone_from(&sound.chroma)
    });
    assert_eq!(recorded.to_rgb(), Ok(()));
}

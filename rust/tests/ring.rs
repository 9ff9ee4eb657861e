//! Rings by the crate's function: 64 frames, a refused one at either end and between, the limits of the count and of the lengths.
use ayresokum::{
    convert, convert_ring, Channel, Frame, Refusal, RingEnded, Settings, SourcePlace, Strides,
    YuvChromaSubsampling, YuvRange, YuvSourceChannels, YuvStandardMatrix,
};

const MOST_FRAMES: usize = 64;
const SETTINGS: Settings = Settings::new(
    10,
    YuvStandardMatrix::Bt709,
    YuvRange::Limited,
    YuvChromaSubsampling::Yuv420,
    YuvSourceChannels::Rgb,
);
/// Padding in every buffer, an odd width and an odd height.
const FRAME: Frame = Frame::whole(
    5,
    3,
    Strides {
        source: 17,
        luma: 6,
        chroma: 9,
    },
);
/// The word that both planes hold before a call.
const OLD: u16 = 7;

#[derive(Clone, PartialEq, Debug)]
struct Ring {
    source: Vec<u16>,
    luma: Vec<u16>,
    chroma: Vec<u16>,
}

impl Ring {
    /// A ring whose samples all depend on their place.
    fn new(frames: usize) -> Ring {
        let lengths = FRAME.lengths(&SETTINGS);
        let source = frames * lengths.source;
        Ring {
            source: (0..source as u32)
                .map(|i| (i * 331 % 1024) as u16)
                .collect(),
            luma: vec![OLD; frames * lengths.luma],
            chroma: vec![OLD; frames * lengths.chroma],
        }
    }

    fn convert(&mut self, count: usize) -> Result<(), RingEnded> {
        let Ring {
            source,
            luma,
            chroma,
        } = self;
        convert_ring(&SETTINGS, &FRAME, count, source, luma, chroma)
    }

    /// The first so many frames, each by a call of its own.
    fn convert_one_by_one(&mut self, frames: usize) {
        let lengths = FRAME.lengths(&SETTINGS);
        let lumas = self.luma.chunks_exact_mut(lengths.luma);
        let planes = lumas.zip(self.chroma.chunks_exact_mut(lengths.chroma));
        let parts = self.source.chunks_exact(lengths.source).zip(planes);
        for (source, (luma, chroma)) in parts.take(frames) {
            convert(&SETTINGS, &FRAME, source, luma, chroma).unwrap();
        }
    }

    /// Makes green of pixel 4 in row 2 too large in a frame.
    fn spoil(&mut self, frame: usize) {
        let start = frame * FRAME.lengths(&SETTINGS).source;
        self.source[start + 2 * FRAME.source_stride + 4 * 3 + 1] = 1024;
    }
}

/// What ends a ring at a frame that was spoiled.
fn ended_at(frame: usize) -> Result<(), RingEnded> {
    let place = SourcePlace {
        row: 2,
        pixel: 4,
        channel: Channel::Green,
    };
    Err(RingEnded {
        written: frame,
        refusal: Refusal::TooLarge(place),
    })
}

fn refused(refusal: Refusal) -> Result<(), RingEnded> {
    Err(RingEnded {
        written: 0,
        refusal,
    })
}

#[test]
fn all_written() {
    for count in [1, 2, 63, MOST_FRAMES] {
        let mut ring = Ring::new(count);
        let mut expected = ring.clone();
        expected.convert_one_by_one(count);
        assert_eq!(ring.convert(count), Ok(()));
        assert_eq!(ring, expected, "{count}");
    }
}

#[test]
fn ended_by_a_sample() {
    for frame in [0, 1, 31, 62, 63] {
        let mut ring = Ring::new(MOST_FRAMES);
        let mut expected = ring.clone();
        expected.convert_one_by_one(frame);
        ring.spoil(frame);
        // A later frame with a sample above m changes nothing.
        ring.spoil(MOST_FRAMES - 1);
        expected.source.clone_from(&ring.source);
        assert_eq!(ring.convert(MOST_FRAMES), ended_at(frame));
        assert_eq!(ring, expected, "{frame}");
    }
}

/// Convert refuses a frame as a ring of one refuses it.
#[test]
fn one_frame() {
    let mut ring = Ring::new(1);
    ring.spoil(0);
    let before = ring.clone();
    let Ring {
        source,
        luma,
        chroma,
    } = &mut ring;
    let refusal = convert(&SETTINGS, &FRAME, source, luma, chroma).unwrap_err();
    assert_eq!(ring.convert(1), refused(refusal));
    assert_eq!(ring, before);
}

#[test]
fn counts() {
    for (count, frames) in [
        (0, 0),
        (0, 1),
        (65, 65),
        (65, 64),
        (1 << 32 | 1, 1),
        (usize::MAX, 1),
    ] {
        let mut ring = Ring::new(frames);
        let before = ring.clone();
        assert_eq!(ring.convert(count), refused(Refusal::Count), "{count}");
        assert_eq!(ring, before, "{count}");
    }
}

/// One frame short, one element long, the frame of a ring of one: nothing is written, though the first frame could be.
#[test]
fn lengths() {
    let change = |change: &dyn Fn(&mut Ring)| {
        let mut ring = Ring::new(MOST_FRAMES);
        change(&mut ring);
        let before = ring.clone();
        assert_eq!(ring.convert(MOST_FRAMES), refused(Refusal::Length));
        assert_eq!(ring, before);
    };
    change(&|ring| *ring = Ring::new(MOST_FRAMES - 1));
    change(&|ring| *ring = Ring::new(MOST_FRAMES + 1));
    change(&|ring| *ring = Ring::new(1));
    change(&|ring| ring.source.push(0));
    change(&|ring| ring.luma.push(OLD));
    change(&|ring| ring.chroma.push(OLD));
    change(&|ring| ring.source.truncate(ring.source.len() - 1));
    change(&|ring| ring.luma.truncate(ring.luma.len() - 1));
    change(&|ring| ring.chroma.truncate(ring.chroma.len() - 1));
    // A sample above m in the first frame does not come before the lengths.
    change(&|ring| {
        ring.spoil(0);
        ring.luma.push(OLD);
    });
}

/// Each refusal before those that come after it.
#[test]
fn order() {
    let refusal = |settings: &Settings, frame: &Frame, count: usize| {
        convert_ring(settings, frame, count, &[], &mut [], &mut [])
    };
    let stride = Frame {
        luma_stride: FRAME.width - 1,
        ..FRAME
    };
    let size = Frame { width: 0, ..stride };
    let depth = Settings {
        depth: 9,
        ..SETTINGS
    };
    assert_eq!(refusal(&depth, &size, 65), refused(Refusal::Depth));
    assert_eq!(refusal(&SETTINGS, &size, 65), refused(Refusal::Size));
    assert_eq!(refusal(&SETTINGS, &stride, 65), refused(Refusal::Stride));
    assert_eq!(refusal(&SETTINGS, &FRAME, 65), refused(Refusal::Count));
    assert_eq!(refusal(&SETTINGS, &FRAME, 64), refused(Refusal::Length));
}

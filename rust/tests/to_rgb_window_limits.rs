//! Refusal 12 on the way back to RGB: both sides of its limits, each number alone and all together, and its turn in the order; and the
//! strides and lengths that refusals 8 and 9 ask of a window. `window_limits.rs` asks the same of the services that read a source.
use ayresokum::{
    to_rgb, Frame, Refusal, Settings, Strides, Window, YuvChromaSubsampling, YuvRange,
    YuvSourceChannels, YuvStandardMatrix,
};

const MOST: usize = 16_384;
/// What all buffers hold before a call: a word that is well formed.
const OLD: u16 = 7 << 6;
const SETTINGS: Settings = Settings::new(
    10,
    YuvStandardMatrix::Bt709,
    YuvRange::Limited,
    YuvChromaSubsampling::Yuv420,
    YuvSourceChannels::Rgb,
);
/// Without padding: three columns from column 2 on and two rows from row 1 on, of five rows.
const FRAME: Frame = Frame::window(
    Window {
        first_column: 2,
        first_row: 1,
        width: 3,
        height: 2,
    },
    5,
    Strides {
        source: 15,
        luma: 3,
        chroma: 4,
    },
);

/// The lengths of the RGB buffer, luma and chroma.
type Lengths = [usize; 3];
const NONE: Lengths = [0; 3];

fn lengths(frame: &Frame, settings: &Settings) -> Lengths {
    let lengths = frame.lengths(settings);
    [lengths.source, lengths.luma, lengths.chroma]
}

/// The refusal that is given for buffers of these lengths. Where one is, the RGB buffer does not change.
fn refusal(settings: &Settings, frame: &Frame, lengths: Lengths) -> Option<Refusal> {
    let [before, luma, chroma] = lengths.map(|length| vec![OLD; length]);
    let mut rgb = before.clone();
    let refusal = to_rgb(settings, frame, &luma, &chroma, &mut rgb).err();
    assert!(refusal.is_none() || rgb == before);
    refusal
}

/// A frame that is taken, with buffers of its own lengths.
fn assert_taken(frame: Frame) {
    let lengths = lengths(&frame, &SETTINGS);
    assert_eq!(refusal(&SETTINGS, &frame, lengths), None, "{frame:?}");
}

/// A frame that no buffers could be had for: where nothing comes before their lengths, these are refused.
fn assert_refused(frame: Frame, wanted: Refusal) {
    assert_eq!(refusal(&SETTINGS, &frame, NONE), Some(wanted), "{frame:?}");
}

/// The frame with a stride that just covers its first column and its width.
fn with_column(first_column: usize) -> Frame {
    Frame {
        first_column,
        source_stride: first_column.saturating_add(3).saturating_mul(3),
        ..FRAME
    }
}

fn with_rows(first_row: usize, source_rows: usize) -> Frame {
    Frame {
        first_row,
        source_rows,
        ..FRAME
    }
}

#[test]
fn first_column() {
    for column in [0, 1, MOST - 1, MOST] {
        assert_taken(with_column(column));
    }
    for column in [MOST + 1, 65_536, 1 << 32, 1 << 63, usize::MAX] {
        assert_refused(with_column(column), Refusal::Window);
    }
}

/// The height is 2.
#[test]
fn rows() {
    for (first_row, source_rows) in [(0, 2), (0, 3), (1, 3), (3, 5), (0, MOST), (MOST - 2, MOST)] {
        assert_taken(with_rows(first_row, source_rows));
    }
    for (first_row, source_rows) in [
        (0, 0),
        (0, 1),
        (1, 2),
        (4, 5),
        (5, 5),
        (6, 5),
        (MOST - 1, MOST),
        (MOST, MOST),
        (0, MOST + 1),
        (MOST - 1, MOST + 1),
        (MOST + 1, MOST + 3),
        (1 << 32, 5),
        (0, 1 << 32),
        (0, (1 << 32) + 2),
        (0, usize::MAX),
        (usize::MAX, 5),
        (usize::MAX, usize::MAX),
    ] {
        assert_refused(with_rows(first_row, source_rows), Refusal::Window);
    }
}

/// First row + height is small where it is cut to 64 bits.
#[test]
fn cut_sums() {
    for first_row in [usize::MAX - 1, usize::MAX] {
        assert_refused(with_rows(first_row, 5), Refusal::Window);
    }
    let tall = Frame {
        height: MOST,
        source_rows: MOST,
        ..FRAME
    };
    for first_row in [usize::MAX - MOST + 1, usize::MAX - MOST + 2, usize::MAX] {
        assert_refused(Frame { first_row, ..tall }, Refusal::Window);
    }
}

/// All three numbers at their limits are taken as far as the lengths, and one over in all of them is not.
#[test]
fn together() {
    let greatest = Frame {
        first_row: MOST - 2,
        source_rows: MOST,
        ..with_column(MOST)
    };
    assert_refused(greatest, Refusal::Length);
    let over = Frame {
        first_row: MOST + 1,
        source_rows: MOST + 1,
        ..with_column(MOST + 1)
    };
    assert_refused(over, Refusal::Window);
    let largest = Frame {
        first_row: usize::MAX,
        source_rows: usize::MAX,
        ..with_column(usize::MAX)
    };
    assert_refused(largest, Refusal::Window);
}

/// A record of five numbers, as frames had them before there were windows, with zeros after them.
#[test]
fn without_source_rows() {
    let former = Frame {
        source_rows: 0,
        ..Frame::unpadded(&SETTINGS, 3, 1)
    };
    assert_refused(former, Refusal::Window);
}

/// Each refusal before those that come after it, with everything that could be refused after it refused as well.
#[test]
fn order() {
    let stride = Frame {
        source_stride: 14,
        ..FRAME
    };
    let window = Frame {
        source_rows: 2,
        ..stride
    };
    let size = Frame { width: 0, ..window };
    let depth = Settings {
        depth: 9,
        ..SETTINGS
    };
    let given = |settings: &Settings, frame: &Frame| refusal(settings, frame, NONE);
    assert_eq!(given(&depth, &size), Some(Refusal::Depth));
    assert_eq!(given(&SETTINGS, &size), Some(Refusal::Size));
    assert_eq!(given(&SETTINGS, &window), Some(Refusal::Window));
    assert_eq!(given(&SETTINGS, &stride), Some(Refusal::Stride));
    assert_eq!(given(&SETTINGS, &FRAME), Some(Refusal::Length));
    let custom = Settings {
        matrix: YuvStandardMatrix::Custom(0.25, 0.125),
        ..SETTINGS
    };
    assert_eq!(given(&custom, &window), Some(Refusal::CustomUnchecked));
}

/// With a buffer that is there to be written.
#[test]
fn nothing_written() {
    let short = Frame {
        source_rows: 2,
        ..FRAME
    };
    for frame in [short, with_column(MOST + 1), with_rows(usize::MAX, 5)] {
        let lengths = [30, 6, 4];
        assert_eq!(refusal(&SETTINGS, &frame, lengths), Some(Refusal::Window));
    }
}

/// The source's stride covers first column + width, in either kind of pixel, and is at most 65,536; those of the planes cover the
/// window alone.
#[test]
fn strides() {
    let rgba = Settings {
        channels: YuvSourceChannels::Rgba,
        ..SETTINGS
    };
    let one = Frame {
        first_row: 0,
        height: 1,
        source_rows: 1,
        ..FRAME
    };
    let given = |settings: &Settings, first_column, source_stride| {
        let frame = Frame {
            first_column,
            source_stride,
            ..one
        };
        refusal(settings, &frame, lengths(&frame, settings))
    };
    for (settings, first_column, covered) in [
        (&SETTINGS, 0, 9),
        (&SETTINGS, 2, 15),
        (&SETTINGS, MOST, 49_161),
        (&rgba, 2, 20),
        (&rgba, MOST - 3, 65_536),
    ] {
        let stride = Some(Refusal::Stride);
        assert_eq!(given(settings, first_column, covered), None);
        assert_eq!(given(settings, first_column, covered - 1), stride);
        assert_eq!(given(settings, first_column, 65_536), None);
        assert_eq!(given(settings, first_column, 65_537), stride);
    }
    // With four channels no stride covers one column more.
    for stride in [65_536, 65_540] {
        assert_eq!(given(&rgba, MOST - 2, stride), Some(Refusal::Stride));
    }
}

/// Buffers of the window's rows, of the rows down to its last, of one row or one element more or fewer than all; and planes of as many
/// rows as the buffer has.
#[test]
fn wrong_lengths() {
    assert_eq!(lengths(&FRAME, &SETTINGS), [75, 6, 4]);
    for buffer in [0, 2 * 15, 3 * 15, 4 * 15, 74, 76, 6 * 15] {
        let wrong = [buffer, 6, 4];
        assert_eq!(
            refusal(&SETTINGS, &FRAME, wrong),
            Some(Refusal::Length),
            "{wrong:?}"
        );
    }
    for wrong in [[75, 15, 4], [75, 6, 12]] {
        assert_eq!(
            refusal(&SETTINGS, &FRAME, wrong),
            Some(Refusal::Length),
            "{wrong:?}"
        );
    }
}

//! Back to RGB by the crate's function: document 01's frame, extreme codes, odd sizes, layouts, every way to store a code, and greys there
//! and back.
use ayresokum::{
    convert, to_rgb, Frame, Refusal, Settings, Strides, YuvBytesPacking, YuvChromaSubsampling,
    YuvEndianness, YuvNVOrder, YuvRange, YuvSourceChannels, YuvStandardMatrix,
};
use YuvChromaSubsampling::{Yuv420, Yuv422, Yuv444};
use YuvSourceChannels::{Bgr, Bgra, Rgb, Rgba};
use YuvStandardMatrix::{Bt2020, Bt470_6, Bt601, Bt709, Smpte240};

/// "J" as 4:4:4, RGB, UV, least significant, little endian: a word is its code. Its weights of the way back are 8192, 11485, 14516, 5850
/// and 2819.
const J: Settings = Settings {
    packing: YuvBytesPacking::LeastSignificantBytes,
    ..Settings::new(10, Bt601, YuvRange::Full, Yuv444, Rgb)
};
/// The weights of the way back are 9567, 14729, 17356, 4378 and 1752.
const LIMITED: Settings = Settings {
    matrix: Bt709,
    range: YuvRange::Limited,
    ..J
};
const MOST: u16 = 1023;
/// The chroma of grey.
const GREY: u16 = 512;
/// What an RGB buffer holds before a call.
const OLD: u16 = 7;

/// The RGB buffer after a call, or the refusal.
fn restored(
    settings: &Settings,
    frame: &Frame,
    luma: &[u16],
    chroma: &[u16],
) -> Result<Vec<u16>, Refusal> {
    let mut rgb = vec![OLD; frame.lengths(settings).source];
    to_rgb(settings, frame, luma, chroma, &mut rgb)?;
    Ok(rgb)
}

/// Red, green and blue of one pixel at 4:4:4.
fn pixel(settings: &Settings, y: u16, cb: u16, cr: u16) -> Vec<u16> {
    let frame = Frame::unpadded(settings, 1, 1);
    restored(settings, &frame, &[y], &[cb, cr]).unwrap()
}

/// The planes that document 01's whole frame has. Its red and blue share one pair, and so come back with one chroma.
#[test]
fn whole_frame() {
    let settings = Settings {
        subsampling: Yuv420,
        ..J
    };
    let strides = Strides {
        source: 11,
        luma: 4,
        chroma: 6,
    };
    let frame = Frame::whole(3, 1, strides);
    let rgb = restored(
        &settings,
        &frame,
        &[306, 117, 1023, 7],
        &[682, 726, 512, 512, 7, 7],
    );
    assert_eq!(
        rgb.unwrap(),
        [606, 95, 607, 417, 0, 418, 1023, 1023, 1023, OLD, OLD]
    );
}

/// All codes 0 or m, in the order Y, Cb, Cr, with the colours of J and of limited range.
#[test]
fn extreme_codes() {
    for (codes, of_j, of_limited) in [
        ([0, 0, 0], [0, 542, 0], [0, 308, 0]),
        ([0, 0, MOST], [716, 0, 0], [844, 0, 0]),
        ([0, MOST, 0], [0, 190, 905], [0, 90, 1008]),
        ([0, MOST, MOST], [716, 0, 905], [844, 0, 1008]),
        ([MOST, 0, 0], [305, MOST, 116], [199, MOST, 35]),
        ([MOST, 0, MOST], [MOST, 834, 116], [MOST, 956, 35]),
        ([MOST, MOST, 0], [305, MOST, MOST], [199, MOST, MOST]),
        ([MOST, MOST, MOST], [MOST, 482, MOST], [MOST, 738, MOST]),
    ] {
        let [y, cb, cr] = codes;
        assert_eq!(pixel(&J, y, cb, cr), of_j, "{codes:?}");
        assert_eq!(pixel(&LIMITED, y, cb, cr), of_limited, "{codes:?}");
    }
}

/// Limited range has black at 64 and white at 940.
#[test]
fn below_black_and_above_white() {
    for (y, grey) in [
        (0, 0),
        (63, 0),
        (64, 0),
        (65, 1),
        (66, 2),
        (939, 1022),
        (940, MOST),
        (941, MOST),
        (MOST, MOST),
    ] {
        assert_eq!(pixel(&LIMITED, y, GREY, GREY), [grey; 3], "{y}");
    }
}

/// At P = 1 the weights of J are 2, 3, 4, 1 and 1, so that one code of Cr is three halves of red and one half of green.
#[test]
fn halves_go_down() {
    let coarse = Settings { precision: 1, ..J };
    assert_eq!(pixel(&coarse, 100, GREY, GREY + 1), [101, 99, 100]);
    assert_eq!(pixel(&coarse, 100, GREY, GREY - 1), [98, 100, 100]);
    assert_eq!(pixel(&coarse, 100, GREY + 1, GREY), [100, 99, 102]);
    assert_eq!(pixel(&coarse, 100, GREY - 1, GREY), [100, 100, 98]);
}

/// The weight of Cb in blue is 136, where yuvutils-rs would hold it to 127 and blue would be 686.
#[test]
fn six_bits_of_precision() {
    let six = Settings {
        precision: 6,
        ..LIMITED
    };
    assert_eq!(pixel(&six, 500, 600, GREY), [511, 492, 698]);
}

/// Codes that differ from place to place.
fn plane(length: usize, step: usize) -> Vec<u16> {
    (0..length).map(|i| (i * step % 1024) as u16).collect()
}

/// The chroma plane of 4:4:4 in which each pixel has what it has in the other plane, by its pair or block.
fn spread(settings: &Settings, frame: &Frame, chroma: &[u16]) -> Vec<u16> {
    let rows_of_one = if settings.subsampling == Yuv420 { 2 } else { 1 };
    let mut spread = Vec::new();
    for row in 0..frame.height {
        for column in 0..frame.width {
            let pair = row / rows_of_one * frame.chroma_stride + column / 2 * 2;
            spread.extend(&chroma[pair..pair + 2]);
        }
    }
    spread
}

#[test]
fn own_pair_or_block() {
    for subsampling in [Yuv420, Yuv422] {
        let settings = Settings { subsampling, ..J };
        for (width, height) in [
            (1, 1),
            (2, 2),
            (3, 1),
            (1, 3),
            (3, 3),
            (4, 5),
            (5, 4),
            (7, 7),
        ] {
            let frame = Frame::unpadded(&settings, width, height);
            let lengths = frame.lengths(&settings);
            let (luma, chroma) = (plane(lengths.luma, 331), plane(lengths.chroma, 97));
            let full = Frame::unpadded(&J, width, height);
            let of_each = restored(&J, &full, &luma, &spread(&settings, &frame, &chroma));
            let shared = restored(&settings, &frame, &luma, &chroma);
            assert_eq!(shared, of_each, "{subsampling:?} {width} {height}");
        }
    }
}

/// Red, green and blue stand where the layout puts them, alpha is m, and what lies past the last pixel is as it was.
#[test]
fn layouts() {
    for (channels, row) in [
        (Rgb, vec![606, 95, 607, 117, 336, 6, OLD, OLD]),
        (Bgr, vec![607, 95, 606, 6, 336, 117, OLD, OLD]),
        (Rgba, vec![606, 95, 607, MOST, 117, 336, 6, MOST, OLD, OLD]),
        (Bgra, vec![607, 95, 606, MOST, 6, 336, 117, MOST, OLD, OLD]),
    ] {
        let settings = Settings { channels, ..J };
        let unpadded = Frame::unpadded(&settings, 2, 2);
        let frame = Frame {
            source_stride: unpadded.source_stride + 2,
            ..unpadded
        };
        let luma = [306, 233, 306, 233];
        let chroma = [682, 726, 384, 429].repeat(2);
        let rgb = restored(&settings, &frame, &luma, &chroma);
        assert_eq!(rgb.unwrap(), row.repeat(2), "{channels:?}");
    }
}

/// How a 10-bit code is stored.
fn word(settings: &Settings, code: u16) -> u16 {
    let packed = match settings.packing {
        YuvBytesPacking::MostSignificantBytes => code << 6,
        YuvBytesPacking::LeastSignificantBytes => code,
    };
    match settings.endianness {
        YuvEndianness::BigEndian => packed.swap_bytes(),
        YuvEndianness::LittleEndian => packed,
    }
}

/// J in each order, packing and byte order.
fn for_all_stored(mut each: impl FnMut(Settings)) {
    use YuvBytesPacking::{LeastSignificantBytes, MostSignificantBytes};
    for order in [YuvNVOrder::UV, YuvNVOrder::VU] {
        for packing in [MostSignificantBytes, LeastSignificantBytes] {
            for endianness in [YuvEndianness::BigEndian, YuvEndianness::LittleEndian] {
                each(Settings {
                    order,
                    packing,
                    endianness,
                    ..J
                });
            }
        }
    }
}

#[test]
fn same_codes_stored_otherwise() {
    let frame = Frame::unpadded(&J, 9, 7);
    let lengths = frame.lengths(&J);
    let (luma, chroma) = (plane(lengths.luma, 331), plane(lengths.chroma, 97));
    let expected = restored(&J, &frame, &luma, &chroma).unwrap();
    for_all_stored(|settings| {
        let stored = |codes: &[u16]| {
            codes
                .iter()
                .map(|&c| word(&settings, c))
                .collect::<Vec<_>>()
        };
        let mut chroma = chroma.clone();
        if settings.order == YuvNVOrder::VU {
            chroma.chunks_exact_mut(2).for_each(<[u16]>::reverse);
        }
        let rgb = restored(&settings, &frame, &stored(&luma), &stored(&chroma));
        assert_eq!(rgb.as_ref(), Ok(&expected), "{settings:?}");
    });
}

/// Every code of 10 bits as grey, converted and turned back: how far it lies from itself at most.
fn greys_apart(settings: &Settings) -> u16 {
    let frame = Frame::unpadded(settings, 1024, 1);
    let source: Vec<u16> = (0..1024).flat_map(|grey| [grey; 3]).collect();
    let (mut luma, mut chroma) = (vec![0; 1024], vec![0; 2048]);
    convert(settings, &frame, &source, &mut luma, &mut chroma).unwrap();
    let rgb = restored(settings, &frame, &luma, &chroma).unwrap();
    let apart = source.iter().zip(&rgb).map(|(a, b)| a.abs_diff(*b));
    apart.max().unwrap()
}

/// In full range each grey has a code of its own; limited range has fewer codes than greys.
#[test]
fn greys_there_and_back() {
    for matrix in [Bt601, Bt709, Bt2020, Smpte240, Bt470_6] {
        let with = |range| Settings { matrix, range, ..J };
        assert_eq!(greys_apart(&with(YuvRange::Full)), 0, "{matrix:?}");
        assert_eq!(greys_apart(&with(YuvRange::Limited)), 1, "{matrix:?}");
    }
}

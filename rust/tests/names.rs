//! The sixteen names, at the root, beside `convert` with the settings that each stands for.
use ayresokum::{
    convert, rgb10_to_p010, rgb10_to_p210, rgb10_to_p410, rgb12_to_p012, rgb12_to_p212,
    rgb12_to_p412, rgb16_to_p016, rgb16_to_p216, rgba10_to_p010, rgba10_to_p210, rgba10_to_p410,
    rgba12_to_p012, rgba12_to_p212, rgba12_to_p412, rgba16_to_p016, rgba16_to_p216, Channel, Frame,
    Refusal, Settings, SourcePlace, YuvBiPlanarImageMut, YuvBytesPacking, YuvChromaSubsampling,
    YuvEndianness, YuvNVOrder, YuvRange, YuvSourceChannels, YuvStandardMatrix,
};
use YuvChromaSubsampling::{Yuv420, Yuv422, Yuv444};
use YuvSourceChannels::{Rgb, Rgba};

type Name = fn(
    &mut YuvBiPlanarImageMut<'_>,
    &[u16],
    u32,
    YuvRange,
    YuvStandardMatrix,
) -> Result<(), Refusal>;

const NAMES: [(Name, u32, YuvSourceChannels, YuvChromaSubsampling); 16] = [
    (rgb10_to_p010, 10, Rgb, Yuv420),
    (rgba10_to_p010, 10, Rgba, Yuv420),
    (rgb10_to_p210, 10, Rgb, Yuv422),
    (rgba10_to_p210, 10, Rgba, Yuv422),
    (rgb10_to_p410, 10, Rgb, Yuv444),
    (rgba10_to_p410, 10, Rgba, Yuv444),
    (rgb12_to_p012, 12, Rgb, Yuv420),
    (rgba12_to_p012, 12, Rgba, Yuv420),
    (rgb12_to_p212, 12, Rgb, Yuv422),
    (rgba12_to_p212, 12, Rgba, Yuv422),
    (rgb12_to_p412, 12, Rgb, Yuv444),
    (rgba12_to_p412, 12, Rgba, Yuv444),
    (rgb16_to_p016, 16, Rgb, Yuv420),
    (rgba16_to_p016, 16, Rgba, Yuv420),
    (rgb16_to_p216, 16, Rgb, Yuv420),
    (rgba16_to_p216, 16, Rgba, Yuv420),
];

const MATRICES: [YuvStandardMatrix; 7] = [
    YuvStandardMatrix::Bt601,
    YuvStandardMatrix::Bt709,
    YuvStandardMatrix::Bt2020,
    YuvStandardMatrix::Smpte240,
    YuvStandardMatrix::Bt470_6,
    YuvStandardMatrix::Custom(0.3, 0.1),
    YuvStandardMatrix::Custom(0.3, -0.1),
];

/// Strides with padding.
fn frame(settings: &Settings, width: usize, height: usize) -> Frame {
    let frame = Frame::unpadded(settings, width, height);
    Frame {
        source_stride: frame.source_stride + 2,
        luma_stride: frame.luma_stride + 1,
        chroma_stride: frame.chroma_stride + 3,
        ..frame
    }
}

/// Samples that all differ, up to the depth's largest.
fn picture(length: usize, depth: u32) -> Vec<u16> {
    (0..length as u32)
        .map(|i| (i * 40_503 % (1 << depth)) as u16)
        .collect()
}

/// Calls the name and `convert` with the same buffers, and compares answers and planes.
fn compare(name: Name, settings: &Settings, frame: &Frame, source: &[u16]) -> Result<(), Refusal> {
    let lengths = frame.lengths(settings);
    let (mut luma, mut chroma) = (vec![7; lengths.luma], vec![7; lengths.chroma]);
    let expected = convert(settings, frame, source, &mut luma, &mut chroma);
    let (mut y_plane, mut uv_plane) = (vec![7; lengths.luma], vec![7; lengths.chroma]);
    let mut image = YuvBiPlanarImageMut {
        y_plane: &mut y_plane,
        y_stride: frame.luma_stride as u32,
        uv_plane: &mut uv_plane,
        uv_stride: frame.chroma_stride as u32,
        width: frame.width as u32,
        height: frame.height as u32,
    };
    let stride = frame.source_stride as u32;
    let answer = name(&mut image, source, stride, settings.range, settings.matrix);
    assert_eq!(answer, expected, "{settings:?} {frame:?}");
    assert_eq!(
        (y_plane, uv_plane),
        (luma, chroma),
        "{settings:?} {frame:?}"
    );
    answer
}

/// Every name with every range and matrix; `each` gets the settings that the name stands for.
fn for_all(mut each: impl FnMut(Name, &Settings)) {
    for (name, depth, channels, subsampling) in NAMES {
        for range in [YuvRange::Limited, YuvRange::Full] {
            for matrix in MATRICES {
                let settings = Settings {
                    depth,
                    precision: 13,
                    matrix,
                    range,
                    subsampling,
                    order: YuvNVOrder::UV,
                    packing: YuvBytesPacking::MostSignificantBytes,
                    endianness: YuvEndianness::LittleEndian,
                    channels,
                };
                each(name, &settings);
            }
        }
    }
}

#[test]
fn frames() {
    let mut done = 0;
    let mut refused = Vec::new();
    for_all(|name, settings| {
        for (width, height) in [(1, 1), (2, 2), (3, 2), (4, 3), (5, 5), (16, 9)] {
            let frame = frame(settings, width, height);
            let source = picture(frame.lengths(settings).source, settings.depth);
            match compare(name, settings, &frame, &source) {
                Ok(()) => done += 1,
                Err(refusal) => refused.push(refusal),
            }
        }
    });
    assert!(done > 1_000, "{done}");
    assert!(refused.contains(&Refusal::CustomPair));
    assert!(refused.contains(&Refusal::CodeOutside));
}

#[test]
fn refusals() {
    for_all(|name, settings| {
        if settings.matrix != YuvStandardMatrix::Bt709 {
            return;
        }
        let frame = frame(settings, 3, 2);
        let source = picture(frame.lengths(settings).source, settings.depth);
        let nothing = Frame { width: 0, ..frame };
        assert_eq!(
            compare(name, settings, &nothing, &source),
            Err(Refusal::Size)
        );
        let short = Frame {
            luma_stride: 2,
            ..frame
        };
        assert_eq!(
            compare(name, settings, &short, &source),
            Err(Refusal::Stride)
        );
        assert_eq!(
            compare(name, settings, &frame, &source[1..]),
            Err(Refusal::Length)
        );
        let mut bright = source;
        bright[frame.source_stride + settings.channels.get_channels_count() + 2] = u16::MAX;
        let blue = SourcePlace {
            row: 1,
            pixel: 1,
            channel: Channel::Blue,
        };
        let expected = match settings.depth {
            16 => Ok(()),
            _ => Err(Refusal::TooLarge(blue)),
        };
        assert_eq!(compare(name, settings, &frame, &bright), expected);
    });
}

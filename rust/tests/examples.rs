//! Document 01's examples and both sides of its limits, by the crate's functions.
use ayresokum::{
    check, convert, settle, Channel, Checked, Frame, Place, Plane, Refusal, Settings, SourcePlace,
    Strides, YuvBytesPacking, YuvChromaSubsampling, YuvRange, YuvSourceChannels, YuvStandardMatrix,
};

/// "J" as 4:2:0, RGB, UV, least significant, little endian.
const J: Settings = Settings {
    packing: YuvBytesPacking::LeastSignificantBytes,
    ..Settings::new(
        10,
        YuvStandardMatrix::Bt601,
        YuvRange::Full,
        YuvChromaSubsampling::Yuv420,
        YuvSourceChannels::Rgb,
    )
};

const ROW: [u16; 9] = [1023, 0, 0, 0, 0, 1023, 1023, 1023, 1023];

struct Planes {
    luma: Vec<u16>,
    chroma: Vec<u16>,
}

/// Planes filled with 7, then converted.
fn converted(settings: &Settings, frame: &Frame, source: &[u16]) -> Result<Planes, Refusal> {
    let lengths = frame.lengths(settings);
    let (mut luma, mut chroma) = (vec![7; lengths.luma], vec![7; lengths.chroma]);
    convert(settings, frame, source, &mut luma, &mut chroma)?;
    Ok(Planes { luma, chroma })
}

fn black(settings: &Settings, width: usize, height: usize) -> Result<(), Refusal> {
    let frame = Frame::unpadded(settings, width, height);
    let source = vec![0; frame.lengths(settings).source];
    converted(settings, &frame, &source).map(|_| ())
}

#[test]
fn weights_of_j() {
    let w = settle(&J).unwrap();
    assert_eq!([w.yr, w.yg, w.yb], [2449, 4809, 934]);
    assert_eq!([w.cb_r, w.cb_g, w.cb_b], [-1382, -2714, 4096]);
    assert_eq!([w.cr_r, w.cr_g, w.cr_b], [4096, -3430, -666]);
}

#[test]
fn whole_frames() {
    let strides = Strides {
        source: 9,
        luma: 4,
        chroma: 6,
    };
    let one = Frame::whole(3, 1, strides);
    let planes = converted(&J, &one, &ROW).unwrap();
    assert_eq!(planes.luma, [306, 117, 1023, 7]);
    assert_eq!(planes.chroma, [682, 726, 512, 512, 7, 7]);

    let two = Frame::whole(3, 2, strides);
    let planes = converted(&J, &two, &[ROW, ROW].concat()).unwrap();
    assert_eq!(planes.luma, [306, 117, 1023, 7, 306, 117, 1023, 7]);
    assert_eq!(planes.chroma, [682, 726, 512, 512, 7, 7]);
}

/// The example of docs/DIFFERENCES.md: written by the numbers that Bt470_6 had before request Three, judged by those that it has.
#[test]
fn former_bt470_6() {
    let full = Settings {
        subsampling: YuvChromaSubsampling::Yuv444,
        ..J
    };
    let with = |matrix| Settings { matrix, ..full };
    let frame = Frame::unpadded(&full, 3, 1);
    let source = [1023, 1023, 1023, 512, 512, 512, 1023, 0, 0];
    let now = with(YuvStandardMatrix::Bt470_6);
    let former = converted(
        &with(YuvStandardMatrix::Custom(0.222, 0.0713)),
        &frame,
        &source,
    )
    .unwrap();
    assert_eq!(former.luma, [1023, 512, 227]);
    assert_eq!(former.chroma, [512, 512, 512, 512, 390, 1023]);
    assert_eq!(
        converted(&now, &frame, &source).unwrap().luma,
        [1023, 512, 306]
    );
    assert_eq!(
        check(&now, &frame, &source, &former.luma, &former.chroma),
        Ok(Checked::Wrong(Place {
            plane: Plane::Luma,
            row: 0,
            element: 2
        }))
    );
}

/// What check says where the luma of one pixel is `code`.
fn luma_checked(settings: &Settings, pixel: &[u16; 3], code: u16) -> Checked {
    let frame = Frame::unpadded(settings, 1, 1);
    let planes = converted(settings, &frame, pixel).unwrap();
    check(settings, &frame, pixel, &[code], &planes.chroma).unwrap()
}

const FIRST_LUMA: Checked = Checked::Wrong(Place {
    plane: Plane::Luma,
    row: 0,
    element: 0,
});

#[test]
fn red_within_and_beyond() {
    let red = [1023, 0, 0];
    assert_eq!(luma_checked(&J, &red, 305), FIRST_LUMA);
    assert_eq!(luma_checked(&J, &red, 306), Checked::Accepted);
    assert_eq!(luma_checked(&J, &red, 307), FIRST_LUMA);
}

/// At P = 1 the tolerance is 783.095. These pixels have exact luma 11.905 and 1015.095.
#[test]
fn equality_is_within() {
    let coarse = Settings { precision: 1, ..J };
    assert_eq!(luma_checked(&coarse, &[30, 5, 0], 795), Checked::Accepted);
    assert_eq!(luma_checked(&coarse, &[30, 5, 0], 796), FIRST_LUMA);
    assert_eq!(
        luma_checked(&coarse, &[1023, 1014, 1000], 232),
        Checked::Accepted
    );
    assert_eq!(luma_checked(&coarse, &[1023, 1014, 1000], 231), FIRST_LUMA);
}

#[test]
fn depths_and_precisions() {
    for (depth, precision, refusal) in [
        (9, 13, Err(Refusal::Depth)),
        (10, 13, Ok(())),
        (16, 13, Ok(())),
        (17, 13, Err(Refusal::Depth)),
        (10, 0, Err(Refusal::Precision)),
        (10, 1, Ok(())),
        (10, 14, Err(Refusal::Precision)),
        (17, 14, Err(Refusal::Depth)),
    ] {
        let settings = Settings {
            depth,
            precision,
            ..J
        };
        assert_eq!(
            settle(&settings).map(|_| ()),
            refusal,
            "{depth} {precision}"
        );
        assert_eq!(black(&settings, 2, 2), refusal, "{depth} {precision}");
    }
    assert_eq!(Settings::GREATEST_DEPTH, 16);
    assert_eq!(Settings::GREATEST_PRECISION, 13);
}

#[test]
fn sizes() {
    for (width, height, refusal) in [
        (0, 1, Err(Refusal::Size)),
        (1, 0, Err(Refusal::Size)),
        (1, 1, Ok(())),
        (16_384, 1, Ok(())),
        (16_385, 1, Err(Refusal::Size)),
        (1, 16_384, Ok(())),
        (1, 16_385, Err(Refusal::Size)),
    ] {
        assert_eq!(black(&J, width, height), refusal, "{width} {height}");
    }
    let largest = Frame::unpadded(&J, usize::MAX, usize::MAX);
    assert_eq!(
        convert(&J, &largest, &[], &mut [], &mut []),
        Err(Refusal::Size)
    );
}

/// Each stride in turn, the other two without padding.
#[test]
fn strides() {
    let frame = Frame::unpadded(&J, 3, 2);
    let source = |source_stride| Frame {
        source_stride,
        ..frame
    };
    let luma = |luma_stride| Frame {
        luma_stride,
        ..frame
    };
    let chroma = |chroma_stride| Frame {
        chroma_stride,
        ..frame
    };
    let with: [(usize, &dyn Fn(usize) -> Frame); 3] = [
        (frame.source_stride, &source),
        (frame.luma_stride, &luma),
        (frame.chroma_stride, &chroma),
    ];
    for (visible, with_stride) in with {
        for (stride, refusal) in [
            (visible - 1, Err(Refusal::Stride)),
            (65_536, Ok(())),
            (65_537, Err(Refusal::Stride)),
        ] {
            let frame = with_stride(stride);
            let source = vec![0; frame.lengths(&J).source];
            let answer = converted(&J, &frame, &source).map(|_| ());
            assert_eq!(answer, refusal, "{frame:?}");
        }
    }
}

#[test]
fn lengths() {
    let frame = Frame::unpadded(&J, 3, 3);
    let lengths = frame.lengths(&J);
    assert_eq!([lengths.source, lengths.luma, lengths.chroma], [27, 9, 8]);
    let convert = |source: usize, luma: usize, chroma: usize| {
        let (source, mut luma, mut chroma) = (vec![0; source], vec![7; luma], vec![7; chroma]);
        let answer = convert(&J, &frame, &source, &mut luma, &mut chroma);
        assert!(answer.is_ok() || (luma.iter().chain(&chroma)).all(|&word| word == 7));
        answer
    };
    assert_eq!(convert(27, 9, 8), Ok(()));
    for (source, luma, chroma) in [
        (26, 9, 8),
        (28, 9, 8),
        (27, 8, 8),
        (27, 10, 8),
        (27, 9, 7),
        (27, 9, 9),
        (0, 0, 0),
    ] {
        assert_eq!(
            convert(source, luma, chroma),
            Err(Refusal::Length),
            "{source} {luma} {chroma}"
        );
    }
}

#[test]
fn samples() {
    let frame = Frame::unpadded(&J, 3, 1);
    for at in 0..9 {
        let mut source = [0; 9];
        source[at] = 1023;
        assert!(converted(&J, &frame, &source).is_ok());
        source[at] = 1024;
        let place = SourcePlace {
            row: 0,
            pixel: at / 3,
            channel: [Channel::Red, Channel::Green, Channel::Blue][at % 3],
        };
        let refusal = Some(Refusal::TooLarge(place));
        assert_eq!(converted(&J, &frame, &source).err(), refusal);
        assert_eq!(check(&J, &frame, &source, &[7; 3], &[7; 4]).err(), refusal);
    }
    let rgba = Settings {
        channels: YuvSourceChannels::Rgba,
        ..J
    };
    let frame = Frame::unpadded(&rgba, 1, 1);
    assert!(converted(&rgba, &frame, &[1023, 1023, 1023, u16::MAX]).is_ok());
}

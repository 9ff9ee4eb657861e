//! Windows by the crate's functions: the whole source, pixels cut out of it, each sample of the sensor above m in turn, rings, and the way
//! back.
mod sensor;

use ayresokum::{
    Channel, Checked, Frame, Place, Plane, Refusal, RingEnded, Settings, Strides, Window,
    YuvBytesPacking, YuvChromaSubsampling, YuvRange, YuvSourceChannels, YuvStandardMatrix,
};
use sensor::{settings, Planes, Sensor, COLUMNS, OLD, ROWS};
use YuvChromaSubsampling::{Yuv420, Yuv422, Yuv444};
use YuvSourceChannels::{Bgr, Bgra, Rgb, Rgba};

const ABOVE: u16 = 1024;
const CHANNELS: [Channel; 3] = [Channel::Red, Channel::Green, Channel::Blue];
/// The whole sensor, a window inside it with its corner at odd places, one pixel, and windows at each edge.
const WINDOWS: [Window; 6] = [
    window(0, 0, COLUMNS, ROWS),
    window(3, 1, 5, 3),
    window(5, 3, 1, 1),
    window(0, 2, 4, 5),
    window(2, 0, 4, 3),
    window(4, 3, 5, 5),
];

const fn window(first_column: usize, first_row: usize, width: usize, height: usize) -> Window {
    Window {
        first_column,
        first_row,
        width,
        height,
    }
}

/// Each subsampling with each channel layout.
fn for_all(mut each: impl FnMut(Settings)) {
    for subsampling in [Yuv420, Yuv422, Yuv444] {
        for channels in [Rgb, Rgba, Bgra, Bgr] {
            each(settings(subsampling, channels));
        }
    }
}

/// The same with each of the windows above.
fn for_all_windows(mut each: impl FnMut(Settings, Window)) {
    for_all(|settings| {
        for window in WINDOWS {
            each(settings, window);
        }
    });
}

fn twice(planes: &Planes) -> Planes {
    [planes.clone(), planes.clone()].into_iter().collect()
}

/// Document 01's frame, with the numbers of a window that is all of its source: it has the planes that it always had.
#[test]
fn zeros_and_height() {
    let frame = Frame {
        width: 3,
        height: 1,
        source_stride: 9,
        luma_stride: 4,
        chroma_stride: 6,
        first_column: 0,
        first_row: 0,
        source_rows: 1,
    };
    let strides = Strides {
        source: 9,
        luma: 4,
        chroma: 6,
    };
    assert_eq!(frame, Frame::whole(3, 1, strides));
    let sensor = Sensor {
        settings: Settings {
            matrix: YuvStandardMatrix::Bt601,
            range: YuvRange::Full,
            packing: YuvBytesPacking::LeastSignificantBytes,
            ..settings(Yuv420, Rgb)
        },
        frame,
        source: vec![1023, 0, 0, 0, 0, 1023, 1023, 1023, 1023],
    };
    let planes = Planes {
        luma: vec![306, 117, 1023, OLD],
        chroma: vec![682, 726, 512, 512, OLD, OLD],
    };
    let ring = sensor.convert_ring(2, &sensor.source.repeat(2));
    assert_eq!(sensor.convert(), (Ok(()), planes.clone()));
    assert_eq!(ring, (Ok(()), twice(&planes)));
    assert_eq!(sensor.check(&planes), Ok(Checked::Accepted));
}

/// Every window that fits the sensor.
fn all_windows() -> Vec<Window> {
    let mut windows = Vec::new();
    for first_column in 0..COLUMNS {
        for first_row in 0..ROWS {
            for width in 1..=COLUMNS - first_column {
                let sizes = 1..=ROWS - first_row;
                windows.extend(sizes.map(|h| window(first_column, first_row, width, h)));
            }
        }
    }
    windows
}

#[test]
fn same_as_cut_out() {
    let windows = all_windows();
    assert_eq!(windows.len(), 45 * 36);
    for_all(|settings| {
        for &window in &windows {
            let sensor = Sensor::new(settings, window);
            let (answer, planes) = sensor.convert();
            assert_eq!(answer, Ok(()), "{settings:?} {window:?}");
            assert_eq!(
                planes,
                sensor.cut_out().convert().1,
                "{settings:?} {window:?}"
            );
            assert_eq!(sensor.check(&planes), Ok(Checked::Accepted));
        }
    });
}

/// Two windows that lie one column or one row apart have different luma, so that one which is off by that is seen.
#[test]
fn neighbours_differ() {
    for_all(|settings| {
        let luma = |first_column, first_row| {
            let sensor = Sensor::new(settings, window(first_column, first_row, 4, 4));
            sensor.convert().1.luma
        };
        assert_ne!(luma(2, 2), luma(3, 2));
        assert_ne!(luma(2, 2), luma(2, 3));
    });
}

/// That a sensor with a sample above m in its window is refused by all services, and no plane touched.
fn assert_refused(sensor: &Sensor, planes: &Planes, refusal: Refusal, told: &str) {
    let ended = RingEnded {
        written: 0,
        refusal,
    };
    let ring = sensor.convert_ring(2, &sensor.source.repeat(2));
    let converted = (Err(refusal), sensor.old_planes(1));
    assert_eq!(sensor.convert(), converted, "{told}");
    assert_eq!(ring, (Err(ended), sensor.old_planes(2)), "{told}");
    assert_eq!(sensor.check(planes), Err(refusal), "{told}");
}

/// That all services take a sensor, and write and accept these planes.
fn assert_written(sensor: &Sensor, planes: &Planes, told: &str) {
    let ring = sensor.convert_ring(2, &sensor.source.repeat(2));
    assert_eq!(sensor.convert(), (Ok(()), planes.clone()), "{told}");
    assert_eq!(ring, (Ok(()), twice(planes)), "{told}");
    assert_eq!(sensor.check(planes), Ok(Checked::Accepted), "{told}");
}

/// A pixel of the sensor with one colour above m: outside the window it is not read, inside it is named by its place from the
/// corner.
fn assert_named_or_unread(sound: &Sensor, planes: &Planes, row: usize, column: usize) {
    let colours = sound.colours(row, column);
    for (at, channel) in colours.into_iter().zip(CHANNELS) {
        let mut sensor = sound.clone();
        sensor.source[at] = ABOVE;
        let told = format!("{:?}: row {row}, column {column}, {channel}", sensor.frame);
        match sensor.place(row, column, channel) {
            Some(place) => assert_refused(&sensor, planes, Refusal::TooLarge(place), &told),
            None => assert_written(&sensor, planes, &told),
        }
    }
}

#[test]
fn each_sample_above_m() {
    for_all_windows(|settings, window| {
        let sensor = Sensor::new(settings, window);
        let planes = sensor.convert().1;
        for row in 0..ROWS {
            for column in 0..COLUMNS {
                assert_named_or_unread(&sensor, &planes, row, column);
            }
        }
    });
}

/// Everything outside the window is above m, and so is alpha within it.
fn with_all_else_above_m(sound: &Sensor) -> Sensor {
    let mut sensor = sound.clone();
    sensor.source.fill(u16::MAX);
    for row in 0..sound.frame.height {
        for column in 0..sound.frame.width {
            let (row, column) = (
                sound.frame.first_row + row,
                sound.frame.first_column + column,
            );
            for at in sound.colours(row, column) {
                sensor.source[at] = sound.source[at];
            }
        }
    }
    sensor
}

#[test]
fn all_else_above_m() {
    for_all_windows(|settings, window| {
        let sound = Sensor::new(settings, window);
        let planes = sound.convert().1;
        let told = format!("{settings:?} {window:?}");
        assert_written(&with_all_else_above_m(&sound), &planes, &told);
    });
}

/// Three frames whose samples differ: the sensor with its rows moved up by none, one and two.
fn frames(settings: Settings, window: Window) -> [Sensor; 3] {
    [0, 1, 2].map(|rows| {
        let mut sensor = Sensor::new(settings, window);
        let start = rows * sensor.frame.source_stride;
        sensor.source.rotate_left(start);
        sensor
    })
}

fn end_to_end(frames: &[Sensor]) -> Vec<u16> {
    frames.iter().flat_map(|f| f.source.clone()).collect()
}

#[test]
fn ring_as_one_by_one() {
    for_all_windows(|settings, window| {
        let frames = frames(settings, window);
        let planes = frames.iter().map(|frame| frame.convert().1).collect();
        let ring = frames[0].convert_ring(3, &end_to_end(&frames));
        assert_eq!(ring, (Ok(()), planes), "{settings:?} {window:?}");
    });
}

/// Green of the window's last pixel ends the ring at the last frame.
#[test]
fn ring_ended_by_a_sample() {
    for_all_windows(|settings, window| {
        let mut frames = frames(settings, window);
        let [first, second, last] = &mut frames;
        let row = window.first_row + window.height - 1;
        let column = window.first_column + window.width - 1;
        let [_, green, _] = last.colours(row, column);
        last.source[green] = ABOVE;
        let ended = RingEnded {
            written: 2,
            refusal: Refusal::TooLarge(last.place(row, column, Channel::Green).unwrap()),
        };
        let planes = [first.convert().1, second.convert().1, last.old_planes(1)];
        let expected = (Err(ended), planes.into_iter().collect());
        let ring = frames[0].convert_ring(3, &end_to_end(&frames));
        assert_eq!(ring, expected, "{settings:?} {window:?}");
    });
}

/// The window's pixels are those of a buffer of their own, and all other elements are as they were.
#[test]
fn back_to_rgb() {
    let windows = all_windows();
    for_all(|settings| {
        for &window in &windows {
            let sensor = Sensor::new(settings, window);
            let planes = sensor.convert().1;
            let cut_out = sensor.cut_out();
            let (answer, alone) = cut_out.to_rgb(&planes);
            assert_eq!(answer, Ok(()), "{settings:?} {window:?}");
            let mut expected = vec![OLD; sensor.source.len()];
            for (here, there) in sensor.rows().zip(cut_out.rows()) {
                expected[here].copy_from_slice(&alone[there]);
            }
            let restored = sensor.to_rgb(&planes);
            assert_eq!(restored, (Ok(()), expected), "{settings:?} {window:?}");
        }
    });
}

/// A word that is not well formed is named by its place in the plane, wherever the window lies.
#[test]
fn back_to_rgb_refused() {
    for_all_windows(|settings, window| {
        let sensor = Sensor::new(settings, window);
        let mut planes = sensor.convert().1;
        let (row, element) = (window.height - 1, window.width - 1);
        planes.luma[row * sensor.frame.luma_stride + element] |= 1;
        let place = Place {
            plane: Plane::Luma,
            row,
            element,
        };
        let untouched = vec![OLD; sensor.source.len()];
        let refused = (Err(Refusal::Malformed(place)), untouched);
        assert_eq!(sensor.to_rgb(&planes), refused, "{settings:?} {window:?}");
    });
}

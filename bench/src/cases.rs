//! The settings and sizes that are measured.
use crate::settings::Settings;

const BT709: u32 = 1;
const LIMITED: u32 = 0;
const MOST_SIGNIFICANT: u32 = 0;

const DEPTHS: [u32; 2] = [10, 16];
/// Rgb and Rgba.
const CHANNELS: [u32; 2] = [0, 1];
/// 4:2:0, 4:2:2 and 4:4:4.
const SUBSAMPLINGS: [u32; 3] = [0, 1, 2];
/// Even widths: at odd ones and 4:2:0 the crate's planes differ by its known fault.
const SIZES: [(usize, usize); 2] = [(1920, 1080), (4096, 2160)];
/// Of each frame of a ring.
const RING_SIZES: [(usize, usize); 2] = [(640, 480), (1920, 1080)];

/// Width, height and padding of the frames that show the cost of a pixel.
const SCALES: [(usize, usize, usize); 7] = [
    (128, 128, 0),
    (512, 512, 0),
    (2048, 2048, 0),
    (8192, 4096, 0),
    (2048, 2048, 1),
    (2048, 2048, 63),
    (2048, 2048, 4096),
];

pub struct Case {
    pub settings: Settings,
    pub width: usize,
    pub height: usize,
    /// Elements past the visible ones in each row of all three buffers.
    pub padding: usize,
}

fn settings(depth: u32, channels: u32, subsampling: u32) -> Settings {
    Settings {
        depth,
        matrix: BT709,
        range: LIMITED,
        subsampling,
        packing: MOST_SIGNIFICANT,
        channels,
        ..Settings::J
    }
}

/// Both sizes, without padding.
fn of_sizes(settings: Settings, sizes: [(usize, usize); 2]) -> [Case; 2] {
    sizes.map(|(width, height)| Case {
        settings,
        width,
        height,
        padding: 0,
    })
}

pub fn all() -> Vec<Case> {
    let mut cases = Vec::new();
    for depth in DEPTHS {
        for channels in CHANNELS {
            for subsampling in SUBSAMPLINGS {
                cases.extend(of_sizes(settings(depth, channels, subsampling), SIZES));
            }
        }
    }
    cases
}

/// 10 bits, 4:2:0, since no sample is too large at 16 bits, and a refused frame has no chroma to write.
pub fn refused() -> Vec<Case> {
    let of_channels = |channels| of_sizes(settings(DEPTHS[0], channels, SUBSAMPLINGS[0]), SIZES);
    CHANNELS.into_iter().flat_map(of_channels).collect()
}

/// 10 bits, Rgb, 4:2:0.
fn plain() -> Settings {
    settings(DEPTHS[0], CHANNELS[0], SUBSAMPLINGS[0])
}

pub fn rings() -> [Case; 2] {
    of_sizes(plain(), RING_SIZES)
}

/// The sensors on which a window is measured: 10 bits, Rgb.
pub fn windows() -> Vec<Case> {
    let of_subsampling =
        |subsampling| of_sizes(settings(DEPTHS[0], CHANNELS[0], subsampling), SIZES);
    SUBSAMPLINGS.into_iter().flat_map(of_subsampling).collect()
}

pub fn scales() -> Vec<Case> {
    SCALES
        .map(|(width, height, padding)| Case {
            settings: plain(),
            width,
            height,
            padding,
        })
        .into()
}

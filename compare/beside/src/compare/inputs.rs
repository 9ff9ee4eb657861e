//! What frames are made of: sizes, padding, layouts, and the numbers by which coverage knows them.
use crate::coverage::Factor;
use crate::draw::Samples;
use crate::settings::Settings;

const SMALL_WIDTH: usize = 9;
const SMALL_HEIGHT: usize = 7;

pub const LARGE: [(usize, usize); 8] = [
    (64, 48),
    (129, 65),
    (640, 3),
    (1, 300),
    (300, 1),
    (257, 2),
    (33, 18),
    (127, 31),
];

/// Elements of padding in a row, as often none as some.
pub const PADDING: [usize; 8] = [0, 0, 0, 0, 1, 2, 3, 8];

pub fn small_sizes() -> Vec<(usize, usize)> {
    let row = |height| (1..=SMALL_WIDTH).map(move |width| (width, height));
    (1..=SMALL_HEIGHT).flat_map(row).collect()
}

/// Every choice of channels, subsampling, order, packing and byte order.
pub fn layouts(settings: Settings) -> Vec<Settings> {
    let mut list = Vec::new();
    for channels in 0..4 {
        for subsampling in 0..3 {
            for bits in 0..8 {
                list.push(Settings {
                    channels,
                    subsampling,
                    order: bits & 1,
                    packing: bits >> 1 & 1,
                    byte_order: bits >> 2,
                    ..settings
                });
            }
        }
    }
    list
}

pub fn factors(sizes: usize) -> Vec<Factor> {
    let list = [
        ("P", 13),
        ("depth", 7),
        ("range", 2),
        ("channels", 4),
        ("subsampling", 3),
        ("order", 2),
        ("packing", 2),
        ("byte order", 2),
        ("matrix", 6),
        ("size", sizes),
        ("samples", 11),
        ("source padding", 2),
        ("luma padding", 2),
        ("chroma padding", 2),
    ];
    list.map(|(name, values)| Factor { name, values }).into()
}

fn samples_number(samples: Samples) -> usize {
    match samples {
        Samples::Flat([r, g, b]) => usize::from(r) + 2 * usize::from(g) + 4 * usize::from(b),
        Samples::Any => 8,
        Samples::Ends => 9,
        Samples::NearEnds => 10,
    }
}

/// The number of each factor's value, in the order of `factors`.
pub fn values(
    settings: &Settings,
    size: usize,
    samples: Samples,
    padding: [usize; 3],
) -> [usize; 14] {
    let [source, luma, chroma] = padding.map(|elements| usize::from(elements > 0));
    [
        settings.precision as usize - 1,
        settings.depth as usize - 10,
        settings.range as usize,
        settings.channels as usize,
        settings.subsampling as usize,
        settings.order as usize,
        settings.packing as usize,
        settings.byte_order as usize,
        settings.matrix as usize,
        size,
        samples_number(samples),
        source,
        luma,
        chroma,
    ]
}

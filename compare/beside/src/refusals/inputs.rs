//! Inputs around the limits of one buffer; the other two buffers of each frame are exact. No width is odd and above 1 at 4:2:0,
//! where the fault would be met.

#[derive(Clone, Copy, PartialEq)]
pub enum Buffer {
    Source,
    Luma,
    Chroma,
}

pub struct Input {
    pub why: &'static str,
    pub buffer: Buffer,
    pub subsampling: u32,
    pub width: u64,
    pub height: u64,
    pub stride: u64,
    pub length: u64,
}

const MOST: u64 = u32::MAX as u64;
const HALF: u64 = 1 << 31;
const OVER: u64 = 1 << 32;

type Row = (&'static str, u32, u64, u64, u64, u64);

/// Why, subsampling, width, height, stride, length; a pixel has three samples.
const SOURCE: [Row; 30] = [
    ("exact, no padding", 0, 2, 2, 6, 12),
    ("exact, padding", 0, 2, 2, 7, 14),
    ("empty", 0, 2, 2, 6, 0),
    ("one short", 0, 2, 2, 6, 11),
    ("one long", 0, 2, 2, 6, 13),
    ("a row long", 0, 2, 2, 6, 18),
    ("a row long, 4:2:0, odd height", 0, 1, 1, 3, 6),
    ("a row long, 4:2:2", 1, 1, 1, 3, 6),
    ("last row without padding, 4:2:0", 0, 2, 2, 7, 13),
    (
        "last row without padding, 4:2:0, odd height",
        0,
        2,
        3,
        7,
        20,
    ),
    ("last row without padding, 4:2:2", 1, 2, 2, 7, 13),
    ("last row without padding, 4:4:4", 2, 2, 2, 7, 13),
    ("one short of that", 0, 2, 2, 7, 12),
    ("stride one short, length stride x rows", 0, 2, 2, 5, 10),
    ("stride one short, length for the last row", 0, 2, 2, 5, 11),
    ("stride 0", 0, 2, 2, 0, 12),
    ("stride 65536", 0, 2, 1, 65536, 65536),
    ("stride 65537", 0, 2, 1, 65537, 65537),
    ("stride 2^32 - 1, one row", 1, 2, 1, MOST, 6),
    ("stride 2^32 - 1, exact", 0, 2, 1, MOST, MOST),
    ("stride 2^32, one row", 0, 2, 1, OVER, 6),
    ("width 0", 0, 0, 2, 6, 12),
    ("height 0", 0, 2, 0, 6, 0),
    ("both 0, empty", 0, 0, 0, 0, 0),
    ("width 16384", 0, 16384, 1, 49152, 49152),
    ("width 16385", 0, 16385, 1, 49155, 49155),
    ("width 2^32", 0, OVER, 1, 6, 6),
    ("width 2^32 - 1", 0, MOST, 1, MOST, 3 * MOST),
    ("width and height 2^31", 0, HALF, HALF, MOST, 0),
    ("width and height 2^32 - 1", 0, MOST, MOST, MOST, 0),
];

/// The same of the luma plane.
const LUMA: [Row; 26] = [
    ("exact, no padding", 0, 2, 2, 2, 4),
    ("exact, padding", 0, 2, 2, 3, 6),
    ("empty", 0, 2, 2, 3, 0),
    ("one short", 0, 2, 2, 2, 3),
    ("one long", 0, 2, 2, 3, 7),
    ("a row long", 0, 2, 2, 3, 9),
    ("a row long, 4:2:0, odd height", 0, 1, 1, 1, 2),
    ("a row long, 4:2:0, height 3", 0, 1, 3, 1, 4),
    ("a row long, 4:2:2", 1, 1, 1, 1, 2),
    ("last row without padding, 4:2:0", 0, 2, 2, 3, 5),
    ("last row without padding, 4:2:0, odd height", 0, 2, 3, 3, 8),
    ("last row without padding, 4:2:2", 1, 2, 2, 3, 5),
    ("last row without padding, 4:4:4", 2, 2, 2, 3, 5),
    ("one short of that", 0, 2, 2, 3, 4),
    ("stride one short, length stride x rows", 0, 2, 2, 1, 2),
    ("stride one short, long", 0, 2, 2, 1, 100),
    ("stride 0", 0, 2, 2, 0, 4),
    ("stride 65536", 0, 2, 1, 65536, 65536),
    ("stride 65537", 0, 2, 1, 65537, 65537),
    ("stride 2^32 - 1, one row", 1, 2, 1, MOST, 2),
    ("stride 2^32 - 1, exact", 0, 2, 1, MOST, MOST),
    ("width 0", 0, 0, 2, 3, 6),
    ("height 0", 0, 2, 0, 3, 0),
    ("height 16384", 0, 1, 16384, 1, 16384),
    ("height 16385", 0, 1, 16385, 1, 16385),
    ("width and height 2^32 - 1", 0, MOST, MOST, MOST, 0),
];

/// The same of the chroma plane.
const CHROMA: [Row; 28] = [
    ("exact, 4:2:0", 0, 2, 2, 2, 2),
    ("exact, 4:2:0, odd height", 0, 2, 3, 2, 4),
    ("exact, 4:2:2, odd width", 1, 3, 2, 4, 8),
    ("exact, 4:4:4", 2, 3, 2, 6, 12),
    ("padding, 4:2:0", 0, 2, 2, 3, 3),
    ("padding, 4:2:2", 1, 3, 2, 6, 12),
    ("padding, 4:4:4", 2, 3, 2, 7, 14),
    ("last row without padding", 1, 3, 2, 6, 10),
    ("stride with padding, length without", 1, 3, 2, 6, 8),
    ("empty", 0, 2, 2, 2, 0),
    ("one short", 0, 2, 2, 2, 1),
    ("one long", 0, 2, 2, 2, 3),
    ("a row long", 0, 2, 2, 2, 4),
    ("stride one short, length stride x rows", 1, 3, 2, 3, 6),
    ("stride one short, length of the visible", 1, 3, 2, 3, 8),
    ("stride 0", 0, 2, 2, 0, 2),
    ("stride 65536", 0, 2, 1, 65536, 65536),
    ("stride 65537", 0, 2, 1, 65537, 65537),
    ("stride 2^32 - 1, exact", 0, 2, 1, MOST, MOST),
    ("width 0", 0, 0, 2, 2, 2),
    ("height 0", 0, 2, 0, 2, 0),
    ("width 16384", 2, 16384, 1, 32768, 32768),
    ("width 16385", 2, 16385, 1, 32770, 32770),
    ("width 2^31 - 1, 4:4:4, empty", 2, HALF - 1, 1, 0, 0),
    ("width 2^31, 4:4:4, empty", 2, HALF, 1, 0, 0),
    ("width 2^32 - 2, 4:2:0, empty", 0, MOST - 1, 1, 0, 0),
    ("width 2^32 - 1, 4:2:0, empty", 0, MOST, 1, 0, 0),
    ("width and height 2^32 - 1", 0, MOST, MOST, MOST, 0),
];

fn inputs(buffer: Buffer, rows: &[Row]) -> Vec<Input> {
    let input = |&(why, subsampling, width, height, stride, length): &Row| Input {
        why,
        buffer,
        subsampling,
        width,
        height,
        stride,
        length,
    };
    rows.iter().map(input).collect()
}

pub fn all() -> [(Buffer, Vec<Input>); 3] {
    [
        (Buffer::Source, inputs(Buffer::Source, &SOURCE)),
        (Buffer::Luma, inputs(Buffer::Luma, &LUMA)),
        (Buffer::Chroma, inputs(Buffer::Chroma, &CHROMA)),
    ]
}

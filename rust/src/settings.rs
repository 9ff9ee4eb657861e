//! The settings of a conversion, with the names of yuvutils-rs.

/// Which codes luma and chroma use.
#[derive(Debug, Clone, Copy, PartialEq, Eq, PartialOrd)]
pub enum YuvRange {
    /// Luma 16·2^(d−8) to 235·2^(d−8), chroma 16·2^(d−8) to 240·2^(d−8), for depth d.
    Limited = 0,
    /// All codes from 0 to m = 2^d − 1.
    Full = 1,
}

/// Where Kr and Kb come from.
///
/// The names have the numbers of Rec. ITU-T H.273. yuvutils-rs 0.8.3 has the two of Smpte240 crossed, and 0.2220, 0.0713 for Bt470_6.
#[derive(Debug, Clone, Copy, PartialEq, PartialOrd)]
pub enum YuvStandardMatrix {
    /// Kr 0.2990, Kb 0.1140.
    Bt601,
    /// Kr 0.2126, Kb 0.0722.
    Bt709,
    /// Kr 0.2627, Kb 0.0593.
    Bt2020,
    /// Kr 0.2120, Kb 0.0870.
    Smpte240,
    /// Systems B and G: Kr 0.2990, Kb 0.1140, as Bt601.
    Bt470_6,
    /// Kr, then Kb. [`check`](crate::check()) refuses it, since it has no exact fractions, and so does
    /// [`to_rgb`](crate::to_rgb()).
    Custom(f32, f32),
}

/// How many pixels share a pair of chroma samples.
#[derive(Debug, Clone, Copy, PartialEq, Eq)]
pub enum YuvChromaSubsampling {
    /// 2×2 blocks.
    Yuv420 = 0,
    /// Pairs along the row.
    Yuv422 = 1,
    /// Each pixel has its own.
    Yuv444 = 2,
}

/// Which of the two chroma samples stands first.
#[derive(Debug, Clone, Copy, PartialEq, Eq, PartialOrd, Ord)]
pub enum YuvNVOrder {
    /// U (Cb) first.
    UV = 0,
    /// V (Cr) first.
    VU = 1,
}

/// Where a code of fewer than 16 bits stands in its word.
#[derive(Debug, Clone, Copy, PartialEq, Eq)]
pub enum YuvBytesPacking {
    /// The code times 2^(16−d).
    MostSignificantBytes = 0,
    /// The code as it is.
    LeastSignificantBytes = 1,
}

/// Whether the two bytes of a stored word are exchanged.
#[derive(Debug, Clone, Copy, PartialEq, Eq)]
pub enum YuvEndianness {
    /// Exchanged.
    BigEndian = 0,
    /// As they are.
    LittleEndian = 1,
}

/// The order of the channels in a pixel of the source, or of the RGB buffer that [`to_rgb`](crate::to_rgb()) writes. Alpha is
/// never read, and written as m.
#[derive(Debug, Clone, Copy, PartialEq, Eq)]
pub enum YuvSourceChannels {
    /// Red, green, blue.
    Rgb = 0,
    /// Red, green, blue, alpha.
    Rgba = 1,
    /// Blue, green, red, alpha.
    Bgra = 2,
    /// Blue, green, red.
    Bgr = 3,
}

impl YuvSourceChannels {
    /// How many u16 elements a pixel has.
    pub const fn get_channels_count(&self) -> usize {
        match self {
            YuvSourceChannels::Rgb | YuvSourceChannels::Bgr => 3,
            YuvSourceChannels::Rgba | YuvSourceChannels::Bgra => 4,
        }
    }
}

/// Everything that a conversion depends on, but for the frame.
///
/// Any values may be set. [`settle`](crate::settle()) says whether they are usable.
#[derive(Debug, Clone, Copy, PartialEq)]
pub struct Settings {
    /// Bits of a sample, d: 10 to 16.
    pub depth: u32,
    /// Bits of the weights after the point, P: 1 to 13.
    pub precision: u32,
    /// The matrix.
    pub matrix: YuvStandardMatrix,
    /// The range of codes.
    pub range: YuvRange,
    /// The chroma subsampling.
    pub subsampling: YuvChromaSubsampling,
    /// The chroma order.
    pub order: YuvNVOrder,
    /// The packing of a stored code.
    pub packing: YuvBytesPacking,
    /// The byte order of a stored word.
    pub endianness: YuvEndianness,
    /// The channels of the source, or of the RGB buffer.
    pub channels: YuvSourceChannels,
}

impl Settings {
    /// The greatest depth that is not refused.
    pub const GREATEST_DEPTH: u32 = 16;

    /// The greatest precision that is not refused.
    pub const GREATEST_PRECISION: u32 = 13;

    /// Settings at the greatest precision, stored as yuvutils-rs stores: UV, most significant, little endian.
    ///
    /// ```
    /// use ayresokum::{Settings, YuvBytesPacking, YuvChromaSubsampling, YuvRange, YuvSourceChannels, YuvStandardMatrix};
    ///
    /// let p010 = Settings::new(
    ///     10,
    ///     YuvStandardMatrix::Bt709,
    ///     YuvRange::Limited,
    ///     YuvChromaSubsampling::Yuv420,
    ///     YuvSourceChannels::Rgb,
    /// );
    /// let low_bits = Settings { packing: YuvBytesPacking::LeastSignificantBytes, ..p010 };
    /// assert_eq!(low_bits.precision, Settings::GREATEST_PRECISION);
    /// ```
    pub const fn new(
        depth: u32,
        matrix: YuvStandardMatrix,
        range: YuvRange,
        subsampling: YuvChromaSubsampling,
        channels: YuvSourceChannels,
    ) -> Settings {
        Settings {
            depth,
            precision: Settings::GREATEST_PRECISION,
            matrix,
            range,
            subsampling,
            order: YuvNVOrder::UV,
            packing: YuvBytesPacking::MostSignificantBytes,
            endianness: YuvEndianness::LittleEndian,
            channels,
        }
    }
}

//! The settings of a conversion by numbers, and what the numbers stand for.
pub use crate::raw::SettingsNumbers as Settings;
use std::fmt;

pub const CUSTOM: u32 = 5;
pub const SMPTE240: u32 = 3;
pub const BT470_6: u32 = 4;

pub const CHANNELS: [&str; 4] = ["Rgb", "Rgba", "Bgra", "Bgr"];
pub const SUBSAMPLINGS: [&str; 3] = ["4:2:0", "4:2:2", "4:4:4"];
pub const ORDERS: [&str; 2] = ["UV", "VU"];
pub const PACKINGS: [&str; 2] = ["most significant", "least significant"];
pub const BYTE_ORDERS: [&str; 2] = ["big", "little"];
pub const RANGES: [&str; 2] = ["limited", "full"];
pub const MATRICES: [&str; 5] = ["Bt601", "Bt709", "Bt2020", "Smpte240", "Bt470_6"];

impl Settings {
    /// Document 01's "J" as 4:2:0: Bt601, full, 10 bits, P = 13, RGB, UV, least significant, little endian.
    pub const J: Settings = Settings {
        depth: 10,
        precision: 13,
        matrix: 0,
        kr: 0.0,
        kb: 0.0,
        range: 1,
        subsampling: 0,
        order: 0,
        packing: 1,
        byte_order: 1,
        channels: 0,
    };

    /// The largest sample.
    pub fn m(&self) -> u16 {
        ((1u32 << self.depth) - 1) as u16
    }

    pub fn channel_count(&self) -> usize {
        [3, 4, 4, 3][self.channels as usize]
    }

    /// Where red, green and blue stand in a pixel.
    pub fn places(&self) -> [usize; 3] {
        [[0, 1, 2], [0, 1, 2], [2, 1, 0], [2, 1, 0]][self.channels as usize]
    }

    pub fn chroma_width(&self, width: usize) -> usize {
        match self.subsampling {
            2 => width.saturating_mul(2),
            _ => width.div_ceil(2).saturating_mul(2),
        }
    }

    pub fn chroma_rows(&self, height: usize) -> usize {
        match self.subsampling {
            0 => height.div_ceil(2),
            _ => height,
        }
    }

    pub fn matrix_name(&self) -> String {
        match self.matrix {
            CUSTOM => format!("custom({:e}, {:e})", self.kr, self.kb),
            named => MATRICES[named as usize].to_string(),
        }
    }

    /// The code that is stored as a word.
    pub fn code(&self, word: u16) -> i32 {
        let word = if self.byte_order == 0 {
            word.swap_bytes()
        } else {
            word
        };
        let shift = if self.packing == 0 {
            16 - self.depth
        } else {
            0
        };
        i32::from(word) >> shift
    }
}

impl fmt::Display for Settings {
    fn fmt(&self, f: &mut fmt::Formatter) -> fmt::Result {
        write!(
            f,
            "depth {} P {} {} {} {} {} {}, {}, {} endian",
            self.depth,
            self.precision,
            self.matrix_name(),
            RANGES[self.range as usize],
            SUBSAMPLINGS[self.subsampling as usize],
            CHANNELS[self.channels as usize],
            ORDERS[self.order as usize],
            PACKINGS[self.packing as usize],
            BYTE_ORDERS[self.byte_order as usize]
        )
    }
}

//! Settings as the numbers that cross to the library.
use crate::raw::SettingsNumbers;
use crate::{Settings, YuvStandardMatrix};

/// The matrix's number and its pair. The pair of a named matrix is not read.
fn matrix_numbers(matrix: YuvStandardMatrix) -> (u32, f32, f32) {
    match matrix {
        YuvStandardMatrix::Bt601 => (0, 0.0, 0.0),
        YuvStandardMatrix::Bt709 => (1, 0.0, 0.0),
        YuvStandardMatrix::Bt2020 => (2, 0.0, 0.0),
        YuvStandardMatrix::Smpte240 => (3, 0.0, 0.0),
        YuvStandardMatrix::Bt470_6 => (4, 0.0, 0.0),
        YuvStandardMatrix::Custom(kr, kb) => (5, kr, kb),
    }
}

impl From<&Settings> for SettingsNumbers {
    fn from(settings: &Settings) -> SettingsNumbers {
        let (matrix, kr, kb) = matrix_numbers(settings.matrix);
        SettingsNumbers {
            depth: settings.depth,
            precision: settings.precision,
            matrix,
            kr,
            kb,
            range: settings.range as u32,
            subsampling: settings.subsampling as u32,
            order: settings.order as u32,
            packing: settings.packing as u32,
            byte_order: settings.endianness as u32,
            channels: settings.channels as u32,
        }
    }
}

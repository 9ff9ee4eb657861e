//! The image that the functions of [`names`](crate::names) write.

/// Both planes of an image, with the field names of yuvutils-rs.
///
/// The planes are plain slices: `y_plane: &mut luma` where yuvutils-rs wraps them. Strides count u16 elements.
#[derive(Debug)]
pub struct YuvBiPlanarImageMut<'a> {
    /// The luma plane, exactly stride × height long.
    pub y_plane: &'a mut [u16],
    /// From one luma row to the next.
    pub y_stride: u32,
    /// The chroma plane, exactly stride × chroma rows long.
    pub uv_plane: &'a mut [u16],
    /// From one chroma row to the next.
    pub uv_stride: u32,
    /// Pixels in a row.
    pub width: u32,
    /// Rows.
    pub height: u32,
}

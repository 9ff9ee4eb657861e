//! The sixteen functions of yuvutils-rs that write bi-planar planes of 16-bit words, by their names.
//!
//! Each is [`convert`](crate::convert()) at P = 13, UV, most significant, little endian. What a caller meets in place of
//! yuvutils-rs 0.8.3:
//!
//! - P is 13 where yuvutils-rs has 15, so codes may differ: by 1 at most at 10 and 12 bits in the frames compared, by up to 8
//!   at 16 bits.
//! - At 4:2:0 with an odd width each luma sample is stored at its own place.
//! - `Smpte240` and `Bt470_6` have the numbers of Rec. ITU-T H.273. At 16 bits in full range `Smpte240` gets refusal 5.
//! - Refused, where yuvutils-rs goes on: a custom pair that is not positive, a code or a sample out of range, a buffer that is
//!   longer than stride × rows or lacks the padding of its last row.
//! - The error is a [`Refusal`], which names the first sample out of range, and the planes of a refused call are untouched.
//!
//! The image is made from the whole source; for a window on it call [`convert`](crate::convert()).
use crate::{
    convert, Frame, Refusal, Settings, Strides, YuvBiPlanarImageMut, YuvChromaSubsampling,
    YuvRange, YuvSourceChannels, YuvStandardMatrix,
};

fn convert_image(
    settings: &Settings,
    image: &mut YuvBiPlanarImageMut<'_>,
    rgb: &[u16],
    rgb_stride: u32,
) -> Result<(), Refusal> {
    let strides = Strides {
        source: rgb_stride as usize,
        luma: image.y_stride as usize,
        chroma: image.uv_stride as usize,
    };
    let frame = Frame::whole(image.width as usize, image.height as usize, strides);
    convert(settings, &frame, rgb, image.y_plane, image.uv_plane)
}

macro_rules! names {
    ($($(#[$note:meta])* $name:ident: $depth:literal bits, $channels:ident to $subsampling:ident;)*) => {$(
        #[doc = concat!(
            "Converts ", stringify!($channels), " of ", stringify!($depth), " bits to ", stringify!($subsampling), "."
        )]
        $(#[$note])*
        pub fn $name(
            image: &mut YuvBiPlanarImageMut<'_>,
            rgb: &[u16],
            rgb_stride: u32,
            range: YuvRange,
            matrix: YuvStandardMatrix,
        ) -> Result<(), Refusal> {
            let subsampling = YuvChromaSubsampling::$subsampling;
            let settings = Settings::new($depth, matrix, range, subsampling, YuvSourceChannels::$channels);
            convert_image(&settings, image, rgb, rgb_stride)
        }
    )*};
}

names! {
    rgb10_to_p010: 10 bits, Rgb to Yuv420;
    rgba10_to_p010: 10 bits, Rgba to Yuv420;
    rgb10_to_p210: 10 bits, Rgb to Yuv422;
    rgba10_to_p210: 10 bits, Rgba to Yuv422;
    rgb10_to_p410: 10 bits, Rgb to Yuv444;
    rgba10_to_p410: 10 bits, Rgba to Yuv444;
    rgb12_to_p012: 12 bits, Rgb to Yuv420;
    rgba12_to_p012: 12 bits, Rgba to Yuv420;
    rgb12_to_p212: 12 bits, Rgb to Yuv422;
    rgba12_to_p212: 12 bits, Rgba to Yuv422;
    rgb12_to_p412: 12 bits, Rgb to Yuv444;
    rgba12_to_p412: 12 bits, Rgba to Yuv444;
    rgb16_to_p016: 16 bits, Rgb to Yuv420;
    rgba16_to_p016: 16 bits, Rgba to Yuv420;
    ///
    /// The name says 4:2:2, but yuvutils-rs declares it with 4:2:0, and so it is here. For 4:2:2 at 16 bits call
    /// [`convert`](crate::convert()).
    rgb16_to_p216: 16 bits, Rgb to Yuv420;
    ///
    /// 4:2:0, whatever the name says, as [`rgb16_to_p216`].
    rgba16_to_p216: 16 bits, Rgba to Yuv420;
}

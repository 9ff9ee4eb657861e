//! The crate's side: a frame handed to one instance of the published loops, with the checks that the published text has.
use crate::frame::{Frame, Planes};
use crate::image;
use crate::settings::Settings;
use published::{Loops, YuvRange, YuvStandardMatrix};

/// The instance for settings that are measured.
pub fn loops(settings: &Settings) -> Loops {
    let channels = (settings.channels as u8).into();
    let subsampling = (settings.subsampling as u8).into();
    published::loops(settings.depth, channels, subsampling)
        .expect("the loops are built for every case")
}

/// Bt709 and limited range, as every case has.
pub fn convert(loops: Loops, frame: &Frame, source: &[u16], planes: &mut Planes) {
    let mut image = image::of(frame, planes, true);
    loops(
        &mut image,
        source,
        image::short(frame.source_stride),
        YuvRange::Limited,
        YuvStandardMatrix::Bt709,
    )
    .expect("the crate takes every frame that is measured");
}

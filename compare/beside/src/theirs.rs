//! The crate's side: the same settings and frames, handed to the published loops.
use crate::caught;
use crate::frame::{Frame, Planes};
use crate::image;
use crate::settings::{Settings, BT470_6, CUSTOM, SMPTE240};
use published::{Call, Choice, YuvError, YuvRange, YuvStandardMatrix};

/// The type that weights are cast to before the loops.
#[derive(Clone, Copy, PartialEq)]
pub enum WeightType {
    OfTheDepth,
    I32,
}

/// Whether the published checks of both planes are asked before the loops.
#[derive(Clone, Copy, PartialEq)]
pub enum PlaneChecks {
    Asked,
    LeftOut,
}

pub fn matrix(settings: &Settings) -> YuvStandardMatrix {
    match settings.matrix {
        0 => YuvStandardMatrix::Bt601,
        1 => YuvStandardMatrix::Bt709,
        2 => YuvStandardMatrix::Bt2020,
        // The crate has its two numbers crossed.
        SMPTE240 => YuvStandardMatrix::Custom(0.212, 0.087),
        // The crate has other numbers for it.
        BT470_6 => YuvStandardMatrix::Custom(0.299, 0.114),
        CUSTOM => YuvStandardMatrix::Custom(settings.kr, settings.kb),
        other => panic!("no matrix has the number {other}"),
    }
}

pub fn range(settings: &Settings) -> YuvRange {
    match settings.range {
        0 => YuvRange::Limited,
        _ => YuvRange::Full,
    }
}

/// The name of an error without its sizes.
pub fn error_name(error: &YuvError) -> String {
    let text = format!("{error:?}");
    text.split('(').next().unwrap_or_default().to_string()
}

fn choice(settings: &Settings, weight_type: WeightType) -> Choice {
    Choice {
        precision: settings.precision,
        channels: settings.channels,
        order: settings.order,
        subsampling: settings.subsampling,
        byte_order: settings.byte_order,
        packing: settings.packing,
        depth: settings.depth,
        is_wide: weight_type == WeightType::I32,
    }
}

/// The crate's answer, or None where its loops were not built for the settings.
pub fn convert_with(
    settings: &Settings,
    frame: &Frame,
    source: &[u16],
    planes: &mut Planes,
    weight_type: WeightType,
    checks: PlaneChecks,
) -> Option<Result<(), YuvError>> {
    let mut image = image::of(frame, planes, checks == PlaneChecks::Asked);
    let call = Call {
        image: &mut image,
        source,
        source_stride: image::short(frame.source_stride),
        range: range(settings),
        matrix: matrix(settings),
    };
    published::convert(choice(settings, weight_type), call)
}

/// The loops with the weights of the depth, after the checks of both planes; or why they wrote no planes.
pub fn try_convert(
    settings: &Settings,
    frame: &Frame,
    source: &[u16],
    planes: &mut Planes,
) -> Result<(), String> {
    let (weight_type, checks) = (WeightType::OfTheDepth, PlaneChecks::Asked);
    let answer = caught::run(|| convert_with(settings, frame, source, planes, weight_type, checks));
    match answer {
        Ok(Some(Ok(()))) => Ok(()),
        Ok(Some(Err(error))) => Err(error_name(&error)),
        Ok(None) => Err("not built".to_string()),
        Err(message) => Err(format!("panic: {message}")),
    }
}

/// The loops on a frame that they take, with the weights of the depth.
pub fn convert(settings: &Settings, frame: &Frame, source: &[u16], planes: &mut Planes) {
    let weight_type = WeightType::OfTheDepth;
    convert_with(
        settings,
        frame,
        source,
        planes,
        weight_type,
        PlaneChecks::LeftOut,
    )
    .expect("the loops are built for every setting that is compared")
    .expect("the source has its exact length");
}

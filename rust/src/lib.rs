//! A proved converter and checker for camera frames: 10 to 16 bit RGB to bi-planar YUV, 4:4:4, 4:2:2 and 4:2:0, and back.
//!
//! It carries over the 16-bit path of yuvutils-rs 0.8.3. The work is done by a library written in Rattle, a language in
//! which every function is proved to meet its contract. This crate is a thin layer over it, with five services:
//!
//! - [`settle`](settle()): the nine integer weights of some settings, or a refusal;
//! - [`convert`](convert()): both planes of a frame written, or a refusal with both untouched;
//! - [`convert_ring`](convert_ring()): up to 64 frames that lie end to end converted in one call, or how many were written and
//!   the refusal that ended it;
//! - [`check`](check()): a recorded frame accepted, or its first wrong sample named, or a refusal;
//! - [`to_rgb`](to_rgb()): two planes turned back into RGB, or a refusal with the RGB buffer untouched.
//!
//! # A first call
//!
//! Red, blue and white at 10 bits. The planes are filled with 7 before, and their padding keeps it.
//!
//! ```
//! use ayresokum::{
//!     convert, Frame, Settings, Strides, YuvBytesPacking, YuvChromaSubsampling, YuvRange, YuvSourceChannels,
//!     YuvStandardMatrix,
//! };
//!
//! let settings = Settings {
//!     packing: YuvBytesPacking::LeastSignificantBytes,
//!     ..Settings::new(
//!         10,
//!         YuvStandardMatrix::Bt601,
//!         YuvRange::Full,
//!         YuvChromaSubsampling::Yuv420,
//!         YuvSourceChannels::Rgb,
//!     )
//! };
//! let frame = Frame::whole(3, 1, Strides { source: 9, luma: 4, chroma: 6 });
//! let source = [1023, 0, 0, 0, 0, 1023, 1023, 1023, 1023];
//! let (mut luma, mut chroma) = ([7; 4], [7; 6]);
//!
//! convert(&settings, &frame, &source, &mut luma, &mut chroma)?;
//! assert_eq!(luma, [306, 117, 1023, 7]);
//! assert_eq!(chroma, [682, 726, 512, 512, 7, 7]);
//! # Ok::<(), ayresokum::Refusal>(())
//! ```
//!
//! # A stale row found
//!
//! A check needs the source that the frame was made from. It names the first sample that this source cannot have given.
//!
//! ```
//! use ayresokum::{
//!     check, convert, Checked, Frame, Place, Plane, Settings, YuvChromaSubsampling, YuvRange, YuvSourceChannels,
//!     YuvStandardMatrix,
//! };
//!
//! let settings = Settings::new(
//!     12,
//!     YuvStandardMatrix::Bt709,
//!     YuvRange::Limited,
//!     YuvChromaSubsampling::Yuv422,
//!     YuvSourceChannels::Rgba,
//! );
//! let frame = Frame::unpadded(&settings, 4, 3);
//! let lengths = frame.lengths(&settings);
//! let source: Vec<u16> = (0..lengths.source).map(|i| i as u16 * 80).collect();
//! let (mut luma, mut chroma) = (vec![0; lengths.luma], vec![0; lengths.chroma]);
//! convert(&settings, &frame, &source, &mut luma, &mut chroma)?;
//! assert_eq!(check(&settings, &frame, &source, &luma, &chroma)?, Checked::Accepted);
//!
//! // The last row still holds the first one's samples.
//! luma.copy_within(0..4, 8);
//! let stale = Place { plane: Plane::Luma, row: 2, element: 0 };
//! assert_eq!(check(&settings, &frame, &source, &luma, &chroma)?, Checked::Wrong(stale));
//! # Ok::<(), ayresokum::Refusal>(())
//! ```
//!
//! # A window on a sensor
//!
//! A frame may be a strip of its source. Pairs and blocks of pixels count from the strip's corner, so that the planes are those
//! of the strip cut out of the source, and what lies outside it is never read.
//!
//! ```
//! use ayresokum::{
//!     check, convert, Checked, Frame, Settings, Strides, Window, YuvChromaSubsampling, YuvRange, YuvSourceChannels,
//!     YuvStandardMatrix,
//! };
//!
//! let settings = Settings::new(
//!     10,
//!     YuvStandardMatrix::Bt709,
//!     YuvRange::Limited,
//!     YuvChromaSubsampling::Yuv420,
//!     YuvSourceChannels::Rgb,
//! );
//! // White on a sensor of 6 × 5 pixels, whose other pixels have samples that are no samples of 10 bits.
//! let mut sensor = vec![u16::MAX; 5 * 6 * 3];
//! for row in 1..3 {
//!     sensor[(row * 6 + 3) * 3..][..2 * 3].fill(1023);
//! }
//! let strip = Window { first_column: 3, first_row: 1, width: 2, height: 2 };
//! let frame = Frame::window(strip, 5, Strides { source: 6 * 3, luma: 2, chroma: 2 });
//! let (mut luma, mut chroma) = ([0; 4], [0; 2]);
//! convert(&settings, &frame, &sensor, &mut luma, &mut chroma)?;
//! assert_eq!(luma, [940 << 6; 4]);
//! assert_eq!(chroma, [512 << 6; 2]);
//! assert_eq!(check(&settings, &frame, &sensor, &luma, &chroma)?, Checked::Accepted);
//! # Ok::<(), ayresokum::Refusal>(())
//! ```
//!
//! # Back to RGB
//!
//! Two planes from any converter are written as pixels, in any of the four channel layouts. Here grey of a 4:2:0 frame goes to
//! the middle of a monitor's buffer, whose other elements stay as they were.
//!
//! ```
//! use ayresokum::{
//!     to_rgb, Frame, Settings, Strides, Window, YuvChromaSubsampling, YuvRange, YuvSourceChannels, YuvStandardMatrix,
//! };
//!
//! let settings = Settings::new(
//!     10,
//!     YuvStandardMatrix::Bt709,
//!     YuvRange::Limited,
//!     YuvChromaSubsampling::Yuv420,
//!     YuvSourceChannels::Rgba,
//! );
//! let (luma, chroma) = ([502 << 6; 4], [512 << 6; 2]);
//! let mut monitor = [7; 4 * 4 * 4];
//! let middle = Window { first_column: 1, first_row: 1, width: 2, height: 2 };
//! let frame = Frame::window(middle, 4, Strides { source: 4 * 4, luma: 2, chroma: 2 });
//! to_rgb(&settings, &frame, &luma, &chroma, &mut monitor)?;
//! assert_eq!(monitor[..4 * 4], [7; 4 * 4]);
//! assert_eq!(monitor[4 * 4..8 * 4], [7, 7, 7, 7, 512, 512, 512, 1023, 512, 512, 512, 1023, 7, 7, 7, 7]);
//! # Ok::<(), ayresokum::Refusal>(())
//! ```
//!
//! # Refusals
//!
//! No input panics and none is undefined. What is not taken is refused, by the first reason that applies.
//!
//! ```
//! # use ayresokum::{convert, Frame, Refusal, Settings, YuvChromaSubsampling, YuvRange, YuvSourceChannels, YuvStandardMatrix};
//! # let settings = Settings::new(
//! #     10,
//! #     YuvStandardMatrix::Bt709,
//! #     YuvRange::Limited,
//! #     YuvChromaSubsampling::Yuv420,
//! #     YuvSourceChannels::Rgb,
//! # );
//! let nothing = Frame::unpadded(&settings, 0, 2);
//! let refusal = convert(&settings, &nothing, &[], &mut [], &mut []).unwrap_err();
//! assert_eq!(refusal, Refusal::Size);
//! assert_eq!(refusal.to_string(), "refusal 7: width or height is 0 or over 16,384");
//! ```
//!
//! A sample above m is refused with its place, so that nobody has to search the frame after a gain change. The first one counts,
//! row by row from the window's corner, and in a pixel red before green before blue. [`convert`](convert()) and
//! [`check`](check()) name the same one.
//!
//! ```
//! use ayresokum::{
//!     check, convert, Channel, Frame, Refusal, Settings, SourcePlace, YuvChromaSubsampling, YuvRange, YuvSourceChannels,
//!     YuvStandardMatrix,
//! };
//!
//! let settings = Settings::new(
//!     10,
//!     YuvStandardMatrix::Bt709,
//!     YuvRange::Limited,
//!     YuvChromaSubsampling::Yuv420,
//!     YuvSourceChannels::Bgra,
//! );
//! let frame = Frame::unpadded(&settings, 20, 4);
//! let lengths = frame.lengths(&settings);
//! let mut source = vec![700; lengths.source];
//! let (mut luma, mut chroma) = (vec![0; lengths.luma], vec![0; lengths.chroma]);
//!
//! // Green stands second in a pixel of four.
//! source[3 * frame.source_stride + 17 * 4 + 1] = 1400;
//! let refusal = convert(&settings, &frame, &source, &mut luma, &mut chroma).unwrap_err();
//! let place = SourcePlace { row: 3, pixel: 17, channel: Channel::Green };
//! assert_eq!(refusal, Refusal::TooLarge(place));
//! assert_eq!(
//!     refusal.to_string(),
//!     "refusal 10: a visible colour sample of the source exceeds m: row 3, pixel 17, green"
//! );
//! assert_eq!(check(&settings, &frame, &source, &luma, &chroma), Err(refusal));
//! ```
//!
//! # Moving from yuvutils-rs
//!
//! The types have its names, and its sixteen functions are in [`names`] and at the root, so that `use yuvutils_rs::{..}`
//! becomes `use ayresokum::{..}`. The planes of the image are plain slices here. The page of [`names`] lists what differs.
//!
//! ```
//! use ayresokum::{rgb10_to_p010, YuvBiPlanarImageMut, YuvRange, YuvStandardMatrix};
//!
//! let rgb = [1023; 2 * 2 * 3];
//! let (mut luma, mut chroma) = ([0; 4], [0; 2]);
//! let mut image = YuvBiPlanarImageMut {
//!     y_plane: &mut luma,
//!     y_stride: 2,
//!     uv_plane: &mut chroma,
//!     uv_stride: 2,
//!     width: 2,
//!     height: 2,
//! };
//! rgb10_to_p010(&mut image, &rgb, 6, YuvRange::Limited, YuvStandardMatrix::Bt709)?;
//! assert_eq!(luma, [940 << 6; 4]);
//! # Ok::<(), ayresokum::Refusal>(())
//! ```
//!
//! # Building
//!
//! `make lib` writes the proved library to the repository's build, where this crate's build looks for it. The variable
//! `AYRESOKUM_LIB` names another folder, from the root or from this crate's folder.
//!
//! The library's interface has a number. With a library of another number than this crate was written for every call panics and
//! names both; a library from before there were numbers cannot be linked, since it has no `ayresokum_version`. A function that
//! is new leaves the number, and a library that lacks it cannot be linked where it is called: the linker names it.
//!
//! # What is proved
//!
//! - For every input, each of the five functions gives the answer that the rules say, and no other: the refusals in their
//!   order, the weights, every element of both planes and of the RGB buffer, the first wrong sample, the first sample that is too
//!   large, the first one that is not well formed. The rules stand as definitions in the repository's crates/rules/specs.
//! - Refusal 4 is never given.
//! - Whatever `convert` writes with a named matrix, `check` accepts.
//!
//! # What is not
//!
//! - The back end of the compiler that turns the proved code into machine code.
//! - This crate: the numbers in place of enumerations, pointers and lengths in place of slices, answers turned into
//!   [`Result`]. It is tested against the rules written afresh, by more than five hundred thousand random calls.
//! - That the recorded source is the one the camera saw.
#![deny(missing_docs)]
#![deny(unsafe_code)]
#![deny(unsafe_op_in_unsafe_fn)]

mod check;
mod convert;
mod frame;
mod image;
pub mod names;
mod numbers;
mod place;
#[allow(unsafe_code)]
mod raw;
mod refusal;
mod ring;
mod settings;
mod settle;
mod source_place;
mod to_rgb;
mod weights;

pub use check::{check, Checked};
pub use convert::convert;
pub use frame::{Lengths, Strides, Window};
pub use image::YuvBiPlanarImageMut;
pub use names::*;
pub use place::{Place, Plane};
pub use raw::Frame;
pub use refusal::Refusal;
pub use ring::{convert_ring, RingEnded};
pub use settings::{
    Settings, YuvBytesPacking, YuvChromaSubsampling, YuvEndianness, YuvNVOrder, YuvRange,
    YuvSourceChannels, YuvStandardMatrix,
};
pub use settle::settle;
pub use source_place::{Channel, SourcePlace};
pub use to_rgb::to_rgb;
pub use weights::Weights;

//! Why a call was refused.
use crate::raw::{PlaceNumbers, SampleNumbers};
use crate::{Place, SourcePlace};
use std::error::Error;
use std::fmt;

/// The first reason why a call was refused.
///
/// They apply in the order of their numbers, but [`Refusal::Unnamed`] comes before all others, [`Refusal::Window`] between
/// [`Refusal::Size`] and [`Refusal::Stride`], and [`Refusal::Count`] between [`Refusal::Stride`] and [`Refusal::Length`]. A
/// refused call has touched no buffer, but for the frames that [`convert_ring`](crate::convert_ring()) wrote before the
/// refused one. For [`to_rgb`](crate::to_rgb()) the RGB buffer takes the source's place.
#[derive(Debug, Clone, Copy, PartialEq, Eq, Hash)]
pub enum Refusal {
    /// The depth is not 10 to 16.
    Depth,
    /// The precision is not 1 to 13.
    Precision,
    /// One of a custom pair's kr, kb and kg = 1 − kr − kb is not above 0.
    CustomPair,
    /// A weight lies far from its exact fraction. Proved never to be given.
    WeightOff,
    /// The code of white or of a full colour would lie outside 0 to m.
    CodeOutside,
    /// A check or the way back to RGB with a custom matrix.
    CustomUnchecked,
    /// The width or height is 0 or over 16,384.
    Size,
    /// A stride is too short or over 65,536. That of the source has to cover the pixels before the window and those of its
    /// width, that of a plane the visible row.
    Stride,
    /// A buffer has not the exact length: stride × rows, in a ring count × stride × rows. The source has all of its rows, also
    /// those outside the window.
    Length,
    /// A visible colour sample of the source is above m. This is where the first one stands: row by row, in a row pixel by
    /// pixel, in a pixel red before green before blue, whatever the channel layout.
    TooLarge(SourcePlace),
    /// The count of a ring's frames is not 1 to 64.
    Count,
    /// The window's first column, its first row or the count of source rows is over 16,384, or the source ends above the
    /// window's last row.
    Window,
    /// A visible sample of a plane is not well formed, which [`to_rgb`](crate::to_rgb()) alone refuses, in place of
    /// [`Refusal::TooLarge`]. This is where the first one stands: all of luma before chroma, each plane row by row.
    Malformed(Place),
    /// A number names no case of its enumeration. The types of this crate rule it out.
    Unnamed,
}

impl Refusal {
    /// The refusals that carry nothing.
    const PLAIN: [Refusal; 12] = [
        Refusal::Depth,
        Refusal::Precision,
        Refusal::CustomPair,
        Refusal::WeightOff,
        Refusal::CodeOutside,
        Refusal::CustomUnchecked,
        Refusal::Size,
        Refusal::Stride,
        Refusal::Length,
        Refusal::Count,
        Refusal::Window,
        Refusal::Unnamed,
    ];

    /// The number of the refusal.
    pub const fn number(self) -> u32 {
        match self {
            Refusal::Depth => 1,
            Refusal::Precision => 2,
            Refusal::CustomPair => 3,
            Refusal::WeightOff => 4,
            Refusal::CodeOutside => 5,
            Refusal::CustomUnchecked => 6,
            Refusal::Size => 7,
            Refusal::Stride => 8,
            Refusal::Length => 9,
            Refusal::TooLarge(_) => 10,
            Refusal::Count => 11,
            Refusal::Window => 12,
            Refusal::Malformed(_) => 13,
            Refusal::Unnamed => 18,
        }
    }

    /// What the number in settle's answer means: 0 is no refusal.
    pub(crate) fn answered(number: u32) -> Result<(), Refusal> {
        match number {
            0 => Ok(()),
            _ => Err(Refusal::plain(number)),
        }
    }

    /// The same of the answers in which refusal 10 comes with a sample.
    pub(crate) fn answered_with(number: u32, sample: SampleNumbers) -> Result<(), Refusal> {
        match number {
            10 => Err(Refusal::TooLarge(SourcePlace::of(sample))),
            _ => Refusal::answered(number),
        }
    }

    /// The same of the answer in which refusal 13 comes with a place.
    pub(crate) fn answered_at(number: u32, place: PlaceNumbers) -> Result<(), Refusal> {
        match number {
            13 => Err(Refusal::Malformed(Place::of(place))),
            _ => Refusal::answered(number),
        }
    }

    // A library of this version gives no other number, 10 with a sample alone and 13 with a place alone; one of another version
    // is not called.
    fn plain(number: u32) -> Refusal {
        let named = Refusal::PLAIN.into_iter().find(|r| r.number() == number);
        named.unwrap_or_else(|| panic!("the linked library has a refusal {number}, unknown here"))
    }

    const fn sentence(self) -> &'static str {
        match self {
            Refusal::Depth => "depth is not 10 to 16",
            Refusal::Precision => "P is not 1 to 13",
            Refusal::CustomPair => {
                "custom pair: not (kr > 0 and kb > 0 and kg > 0, kg as worked out in f32); not-a-number counts as failing"
            }
            Refusal::WeightOff => {
                "named matrix: some integer weight lies more than 51/100 from 2^P times its exact fraction"
            }
            Refusal::CodeOutside => {
                "one of five codes is outside 0 to m: white's luma, Cb of full blue and of full yellow, Cr of full red and of full cyan"
            }
            Refusal::CustomUnchecked => "check only: the matrix is custom",
            Refusal::Size => "width or height is 0 or over 16,384",
            Refusal::Stride => {
                "a stride is shorter than its visible row, the source's than first column + width, or over 65,536"
            }
            Refusal::Length => {
                "a buffer's length is not exactly stride × rows, in a ring count × stride × rows"
            }
            Refusal::TooLarge(_) => "a visible colour sample of the source exceeds m",
            Refusal::Count => "the count of frames is not 1 to 64",
            Refusal::Window => {
                "first column, first row or source rows are over 16,384, or first row + height is over the source rows"
            }
            Refusal::Malformed(_) => "a visible sample of a plane is not well formed",
            Refusal::Unnamed => "a number names no case of its enumeration",
        }
    }
}

/// `refusal 7: width or height is 0 or over 16,384`, and so on; refusals 10 and 13 with their place, as
/// `refusal 10: a visible colour sample of the source exceeds m: row 3, pixel 17, green` and
/// `refusal 13: a visible sample of a plane is not well formed: luma, row 3, element 17`.
impl fmt::Display for Refusal {
    fn fmt(&self, f: &mut fmt::Formatter<'_>) -> fmt::Result {
        write!(f, "refusal {}: {}", self.number(), self.sentence())?;
        match self {
            Refusal::TooLarge(place) => write!(f, ": {place}"),
            Refusal::Malformed(place) => write!(f, ": {place}"),
            _ => Ok(()),
        }
    }
}

impl Error for Refusal {}

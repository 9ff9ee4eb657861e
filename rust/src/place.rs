//! Where a sample of the planes stands.
use crate::raw::PlaceNumbers;
use std::fmt;

/// Where a sample of the planes stands. Rows and elements count from 0.
#[derive(Debug, Clone, Copy, PartialEq, Eq, Hash)]
pub struct Place {
    /// Its plane.
    pub plane: Plane,
    /// Its row in the plane.
    pub row: usize,
    /// Its element in the row.
    pub element: usize,
}

impl Place {
    pub(crate) fn of(place: PlaceNumbers) -> Place {
        Place {
            plane: Plane::of(place.plane),
            row: place.row as usize,
            element: place.element as usize,
        }
    }
}

/// `luma, row 3, element 17`.
impl fmt::Display for Place {
    fn fmt(&self, f: &mut fmt::Formatter<'_>) -> fmt::Result {
        let Place {
            plane,
            row,
            element,
        } = self;
        write!(f, "{plane}, row {row}, element {element}")
    }
}

/// One of the two planes.
#[derive(Debug, Clone, Copy, PartialEq, Eq, Hash)]
pub enum Plane {
    /// The plane of luma samples.
    Luma,
    /// The plane of interleaved chroma samples.
    Chroma,
}

impl Plane {
    fn of(number: u32) -> Plane {
        match number {
            0 => Plane::Luma,
            1 => Plane::Chroma,
            _ => panic!("the linked library has a plane {number}, unknown here"),
        }
    }
}

/// `luma` or `chroma`.
impl fmt::Display for Plane {
    fn fmt(&self, f: &mut fmt::Formatter<'_>) -> fmt::Result {
        f.write_str(match self {
            Plane::Luma => "luma",
            Plane::Chroma => "chroma",
        })
    }
}

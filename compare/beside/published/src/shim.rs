//! What the published text leans on and does not contain, written afresh after its uses: a trait of `num_traits`, and the type of
//! the image, whose own file is not part of the text.
use crate::checks;
use crate::{YuvChromaSubsampling, YuvError};

pub mod num_traits {
    /// A cast by `as` between whole numbers.
    pub trait AsPrimitive<T>: 'static + Copy {
        fn as_(self) -> T;
    }

    impl AsPrimitive<i32> for i32 {
        fn as_(self) -> i32 {
            self
        }
    }

    impl AsPrimitive<i16> for i32 {
        fn as_(self) -> i16 {
            self as i16
        }
    }

    impl AsPrimitive<i32> for i16 {
        fn as_(self) -> i32 {
            i32::from(self)
        }
    }
}

pub struct Plane<'a, T>(pub &'a mut [T]);

impl<T> Plane<'_, T> {
    /// The text asks for the elements by this name.
    #[allow(clippy::should_implement_trait)]
    pub fn borrow_mut(&mut self) -> &mut [T] {
        self.0
    }
}

pub struct YuvBiPlanarImageMut<'a, T> {
    pub y_plane: Plane<'a, T>,
    pub y_stride: u32,
    pub uv_plane: Plane<'a, T>,
    pub uv_stride: u32,
    pub width: u32,
    pub height: u32,
    /// Whether the checks of both planes are asked: the loops can take more than the checks let through.
    pub is_checked: bool,
}

impl<T> YuvBiPlanarImageMut<'_, T> {
    /// Which checks the crate asks here is not in the text; these two are the ones that it has for such planes.
    pub fn check_constraints(&self, subsampling: YuvChromaSubsampling) -> Result<(), YuvError> {
        if !self.is_checked {
            return Ok(());
        }
        let (width, height) = (self.width, self.height);
        checks::luma(self.y_plane.0, self.y_stride, width, height)?;
        checks::chroma(self.uv_plane.0, self.uv_stride, width, height, subsampling)
    }
}

//! The nine weights of settled settings.

/// The weights of red, green and blue in luma, Cb and Cr, times 2^P, as whole numbers.
#[derive(Debug, Clone, Copy, PartialEq, Eq, Hash)]
pub struct Weights {
    /// Red in luma.
    pub yr: i32,
    /// Green in luma.
    pub yg: i32,
    /// Blue in luma.
    pub yb: i32,
    /// Red in Cb.
    pub cb_r: i32,
    /// Green in Cb.
    pub cb_g: i32,
    /// Blue in Cb.
    pub cb_b: i32,
    /// Red in Cr.
    pub cr_r: i32,
    /// Green in Cr.
    pub cr_g: i32,
    /// Blue in Cr.
    pub cr_b: i32,
}

impl Weights {
    /// From the nine numbers in the order in which the library gives them.
    pub(crate) const fn of([yr, yg, yb, cb_r, cb_g, cb_b, cr_r, cr_g, cr_b]: [i32; 9]) -> Weights {
        Weights {
            yr,
            yg,
            yb,
            cb_r,
            cb_g,
            cb_b,
            cr_r,
            cr_g,
            cr_b,
        }
    }
}

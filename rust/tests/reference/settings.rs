//! "for depth d let m = 2^d − 1", and the ranges.
use super::Settings;

impl Settings {
    /// Whether each number names a case of its enumeration.
    pub fn is_meant(&self) -> bool {
        self.matrix <= 5
            && self.range <= 1
            && self.subsampling <= 2
            && self.order <= 1
            && self.packing <= 1
            && self.byte_order <= 1
            && self.channels <= 3
    }

    pub fn is_custom(&self) -> bool {
        self.matrix == 5
    }

    pub fn most(&self) -> i128 {
        (1 << self.depth) - 1
    }

    /// 2^P.
    pub fn one(&self) -> i128 {
        1 << self.precision
    }

    fn limited_or_full(&self, limited: i128, full: i128) -> i128 {
        match self.range {
            0 => limited << (self.depth - 8),
            _ => full,
        }
    }

    pub fn bias_y(&self) -> i128 {
        self.limited_or_full(16, 0)
    }

    pub fn range_y(&self) -> i128 {
        self.limited_or_full(219, self.most())
    }

    pub fn range_uv(&self) -> i128 {
        self.limited_or_full(224, self.most())
    }

    pub fn bias_uv(&self) -> i128 {
        1 << (self.depth - 1)
    }
}

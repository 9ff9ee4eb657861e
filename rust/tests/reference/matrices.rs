//! The table of matrices, in ten-thousandths.
use super::Settings;

pub struct Row {
    pub kr: i128,
    pub kb: i128,
    pub kg: i128,
}

/// The row of a named matrix.
pub fn row(settings: &Settings) -> Row {
    let (kr, kb, kg) = match settings.matrix {
        0 => (2990, 1140, 5870),
        1 => (2126, 722, 7152),
        2 => (2627, 593, 6780),
        3 => (2120, 870, 7010),
        4 => (2990, 1140, 5870),
        other => unreachable!("matrix {other} has no row"),
    };
    Row { kr, kb, kg }
}

/// "the 32-bit floats nearest Kr/10000 and Kb/10000": parsing a decimal gives the nearest float.
fn nearest(ten_thousandths: i128) -> f32 {
    format!("0.{ten_thousandths:04}").parse().unwrap()
}

pub fn pair(settings: &Settings) -> (f32, f32) {
    if settings.is_custom() {
        return (settings.kr, settings.kb);
    }
    let row = row(settings);
    (nearest(row.kr), nearest(row.kb))
}

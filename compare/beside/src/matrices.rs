//! The matrices that frames are converted by: the five names, chosen custom pairs and drawn ones.
use crate::ours;
use crate::random::Random;
use crate::settings::{Settings, CUSTOM};

#[derive(Clone, Copy)]
pub struct Matrix {
    pub number: u32,
    pub kr: f32,
    pub kb: f32,
}

const DRAWN: usize = 40;
const CHOSEN: [(f32, f32); 12] = [
    (0.25, 0.125),
    (0.299, 0.114),
    (0.087, 0.212),
    (0.5, 0.25),
    (0.25, 0.5),
    (0.45, 0.45),
    (0.3333, 0.3333),
    (0.9, 0.05),
    (0.05, 0.9),
    (0.001, 0.001),
    (0.0001, 0.7),
    (0.7, 0.0001),
];

pub fn named() -> Vec<Matrix> {
    (0..CUSTOM)
        .map(|number| Matrix {
            number,
            kr: 0.0,
            kb: 0.0,
        })
        .collect()
}

fn custom((kr, kb): (f32, f32)) -> Matrix {
    Matrix {
        number: CUSTOM,
        kr,
        kb,
    }
}

/// A pair whose kr, kb and kg are above 0, unless rounding makes one 0.
pub fn drawn(random: &mut Random) -> Matrix {
    let kr = random.fraction();
    custom((kr, random.fraction() * (1.0 - kr)))
}

pub fn all(random: &mut Random) -> Vec<Matrix> {
    let mut matrices = named();
    matrices.extend(CHOSEN.map(custom));
    matrices.extend((0..DRAWN).map(|_| drawn(random)));
    matrices
}

pub fn with(settings: &Settings, matrix: Matrix) -> Settings {
    Settings {
        matrix: matrix.number,
        kr: matrix.kr,
        kb: matrix.kb,
        ..*settings
    }
}

/// The matrices of a list with which the library does not refuse the settings.
pub fn settled(settings: &Settings, matrices: &[Matrix]) -> Vec<Matrix> {
    let is_settled = |matrix: &&Matrix| ours::settle(&with(settings, **matrix)).refusal == 0;
    matrices.iter().filter(is_settled).copied().collect()
}

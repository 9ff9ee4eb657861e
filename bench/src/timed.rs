//! What a set of buffers has to offer so that candidates can be timed on it.
use crate::cases::Case;
use crate::frame::Planes;

/// What the planes hold before a converter writes them. At 10 bits no code in most-significant packing is stored as this word.
pub const UNWRITTEN: u16 = 1;

/// The buffers of one case, and the candidates that are timed on them.
pub trait Timed: Sized {
    type Candidate: Copy + PartialEq;

    fn new(case: &Case) -> Self;

    fn planes(&mut self) -> &mut Planes;

    fn run(&mut self, candidate: Self::Candidate);

    /// Runs both and says whether they write the same words to the same places.
    fn write_the_same(&mut self, these: Self::Candidate, those: Self::Candidate) -> bool {
        self.run(these);
        let planes = self.planes();
        let unwritten = Planes::filled(planes.luma.len(), planes.chroma.len(), UNWRITTEN);
        let written = std::mem::replace(planes, unwritten);
        self.run(those);
        *self.planes() == written
    }
}

//! One call by either fitter, on buffers that begin at a fixed alignment.

use testing::damage::Input;
use testing::Numbers;

use crate::fitter::{comparison_fit, comparison_take_back};
use crate::inputs::Call;

/// Which of the two fitters.
#[derive(Clone, Copy, PartialEq, Eq, Debug)]
pub enum Fitter {
    Library,
    Comparison,
}

/// The bytes begin at a multiple of this, so that copying them takes the same
/// steps in every run.
const ALIGNMENT: usize = 4_096;

/// Bytes that begin at a multiple of the alignment.
pub struct Buffer {
    bytes: Vec<u8>,
    start: usize,
    length: usize,
}

impl Buffer {
    pub fn new(length: usize) -> Buffer {
        let bytes = vec![0; length + ALIGNMENT];
        let start = bytes.as_ptr().addr().next_multiple_of(ALIGNMENT) - bytes.as_ptr().addr();
        Buffer {
            bytes,
            start,
            length,
        }
    }

    pub fn bytes(&self) -> &[u8] {
        &self.bytes[self.start..self.start + self.length]
    }

    pub fn bytes_mut(&mut self) -> &mut [u8] {
        &mut self.bytes[self.start..self.start + self.length]
    }
}

/// The four buffers of a call.
pub struct Buffers {
    object: Buffer,
    order: Buffer,
    pub image: Buffer,
    pub journal: Buffer,
}

impl Buffers {
    /// Room for an input.
    pub fn new(input: &Input) -> Buffers {
        Buffers {
            object: Buffer::new(input.object.len()),
            order: Buffer::new(input.order.len()),
            image: Buffer::new(input.image.len()),
            journal: Buffer::new(input.journal.len()),
        }
    }

    /// Makes the buffers hold the input.
    pub fn fill(&mut self, input: &Input) {
        self.object.bytes_mut().copy_from_slice(&input.object);
        self.order.bytes_mut().copy_from_slice(&input.order);
        self.image.bytes_mut().copy_from_slice(&input.image);
        self.journal.bytes_mut().copy_from_slice(&input.journal);
    }

    /// The answer of one call.
    pub fn call(&mut self, fitter: Fitter, call: Call) -> Numbers {
        let (object, order) = (self.object.bytes(), self.order.bytes());
        let (image, journal) = (self.image.bytes_mut(), self.journal.bytes_mut());
        match (fitter, call) {
            (Fitter::Library, Call::Fit) => aktinoph::fit(object, order, image, journal).numbers(),
            (Fitter::Library, Call::TakeBack) => aktinoph::take_back(image, journal).numbers(),
            (Fitter::Comparison, Call::Fit) => {
                comparison_fit(object, order, image, journal).numbers()
            }
            (Fitter::Comparison, Call::TakeBack) => comparison_take_back(image, journal).numbers(),
        }
    }
}

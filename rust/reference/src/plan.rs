//! What a done install lays, as demand 2 gives it: pieces of the image and
//! their span.

use crate::journal::Span;
use crate::object::RelocationSection;
use crate::order::Window;
use crate::placement::has_loaded_bytes;
use crate::relocate::relocated_bytes;
use crate::symbol::Symbols;

/// The bytes of one loaded section. Document 01: laid bytes.
#[derive(Clone, PartialEq, Eq, Debug)]
pub struct Piece {
    /// Counts from the image's first byte.
    pub start: usize,
    pub bytes: Vec<u8>,
}

impl Piece {
    fn end(&self) -> usize {
        self.start + self.bytes.len()
    }
}

/// The pieces lie inside the image and share no byte.
#[derive(Clone, PartialEq, Eq, Debug)]
pub struct Plan {
    pub pieces: Vec<Piece>,
    pub span: Span,
}

impl Plan {
    /// All checks up to 14 have passed.
    pub fn new(symbols: &Symbols, window: Window, lists: &[RelocationSection]) -> Plan {
        let loaded = symbols.object.allocated();
        let pieces: Vec<Piece> = loaded
            .filter(|(_, section)| has_loaded_bytes(section))
            .map(|(index, _)| Piece {
                // "each at its address less that order's base"
                start: window.position(symbols.addresses[index]) as usize,
                bytes: relocated_bytes(symbols, index, lists),
            })
            .collect();
        let span = span_of(&pieces);
        Plan { pieces, span }
    }

    /// Writes the pieces into an image of the length that was judged.
    pub fn lay(&self, image: &mut [u8]) {
        for piece in &self.pieces {
            image[piece.start..piece.end()].copy_from_slice(&piece.bytes);
        }
    }
}

/// "A fit's span runs from the lowest to the end of the highest laid byte; with
/// none laid it is start 0, length 0."
fn span_of(pieces: &[Piece]) -> Span {
    let lowest = pieces.iter().map(|piece| piece.start).min().unwrap_or(0);
    let end = pieces.iter().map(Piece::end).max().unwrap_or(0);
    Span {
        start: lowest as u32,
        length: (end - lowest) as u32,
    }
}

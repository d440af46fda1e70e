//! The pairs of the repository: of the vectors, and real objects.

use crate::Case;
use testing::given::{objects, vectors, Given};

/// A broken ledger hides the other checks.
fn case(given: Given) -> Case {
    let stated = match given.answer {
        (1, _, _) => None,
        (number @ 2..=8, place, _) => Some((number, place)),
        _ => Some((0, 0)),
    };
    Case {
        name: given.name,
        object: given.object,
        order: given.order,
        image_length: given.image_length,
        stated,
        values: Vec::new(),
        fit: None,
    }
}

/// The vectors of checks 2 to 8, and every fourth of the others.
pub fn cases() -> Vec<Case> {
    let is_stated = |given: &Given| matches!(given.answer.0, 2..=8);
    let (stated, others): (Vec<Given>, Vec<Given>) = vectors().into_iter().partition(is_stated);
    let fourth = others.into_iter().step_by(4);
    let fits = stated.into_iter().chain(fourth).chain(objects());
    fits.map(case).collect()
}

//! The pairs of the repository: of the vectors, and real objects with the bytes
//! that a linker lays.

use crate::lines::{loaded_sections, starts_in_image};
use crate::{Case, Laid, DONE};
use testing::given::{histories, objects, vectors, Given};

/// What the image has for each loaded section after a done fit.
fn bytes(given: &Given) -> Vec<Laid> {
    match (&given.image, given.answer) {
        (Some(image), DONE) => {
            let starts = starts_in_image(&given.object, &given.order);
            let sections = loaded_sections(&given.object).into_iter();
            sections
                .zip(starts)
                .map(|((index, size), start)| (index, image[start..start + size].to_vec()))
                .collect()
        }
        _ => Vec::new(),
    }
}

fn case(given: Given) -> Case {
    Case {
        bytes: bytes(&given),
        name: given.name,
        object: given.object,
        order: given.order,
        image_length: given.image_length,
        stated: Some(given.answer),
        fit: None,
    }
}

/// Those that are done or break one of checks 9 to 14.
pub fn cases() -> Vec<Case> {
    let is_relocated = |given: &Given| matches!(given.answer.0, 0 | 9..=14);
    let fits = vectors().into_iter().chain(histories()).chain(objects());
    fits.filter(is_relocated).map(case).collect()
}

//! "Every type number from 0 to 255 has a line in one decision".

use crate::fits::*;
use crate::{Case, DONE};
use testing::build::*;

/// A relocation of this type at 8, on bytes of its form, against a symbol at
/// its own place. A PCREL_LO12 names a label at 0, where there is a pair.
pub fn of_type(kind: u32) -> Fit {
    let form = STORING.iter().find(|(number, _, _)| *number == kind);
    let word = form.map_or(0, |(_, word, _)| *word);
    let code = [words(&[0x17, 0]), low_bytes(word, 8)].concat();
    let symbol = if matches!(kind, 24 | 25) { 2 } else { 1 };
    let symbols = [Symbol::absolute(PLACE + 8), Symbol::new(0, 1, 0)];
    let list = [
        Relocation::new(0, PCREL_HI20, 1, 0),
        Relocation::new(8, kind, symbol, 0),
    ];
    at(PLACE, &code, &symbols, &list)
}

pub fn cases() -> Vec<Case> {
    let case = |kind: u32| {
        let is_storing = STORING.iter().any(|(number, _, _)| *number == kind);
        let is_taken = is_storing || MARKERS.contains(&kind);
        let stated = if is_taken { DONE } else { (9, 1, 0) };
        let case = Case::new(format!("type {kind}"), &of_type(kind), stated);
        // "Type 2 (word64, T) is added for class 2 only".
        match kind {
            2 => case.only_in_class_1(),
            _ => case,
        }
    };
    (0..=255).map(case).collect()
}

//! Where a reason begins and ends: the last section and the first past it, the
//! section numbers that name none, and the last symbol.

use super::{Limits, PCREL_HI20, PCREL_LO12_I, WORD};
use crate::build::*;
use crate::{Numbers, DONE};

/// Section numbers, and the reason for which a symbol of it does not resolve; 0 where
/// it does. There are 128 sections, of which 1 and 127 are loaded.
const SECTIONS: [(u16, u32); 15] = [
    (0, 5),
    (1, 0),
    (2, 2),
    (126, 2),
    (127, 0),
    (128, 2),
    (129, 2),
    (0x00FF, 2),
    (0xFEFF, 2),
    (0xFF00, 4),
    (0xFFF0, 4),
    (ABSOLUTE, 0),
    (COMMON, 3),
    (0xFFF3, 4),
    (0xFFFF, 4),
];

/// A relocation of this type against a symbol, and behind it the pair of a
/// PCREL_LO12 whose label is at 4.
fn code(kind: u32, symbol: Symbol) -> Fit {
    let bytes: Vec<u8> = [0x13_u32, 0x17]
        .into_iter()
        .flat_map(u32::to_le_bytes)
        .collect();
    let list = [
        Relocation::new(0, kind, 1, 0),
        Relocation::new(4, PCREL_HI20, 0, 0),
    ];
    let mut fit = Fit::code(0x1000, &bytes, &[symbol], &list);
    fit.sections.resize(127, Section::default());
    fit.sections.push(Section::loaded(1, &[7]));
    fit.placements.push((127, 0x1010));
    fit.journal = journal(0x11);
    fit
}

/// 10 with the first of these that is a reason, or done where none is.
fn answer(reasons: &[u32]) -> Numbers {
    let first = reasons.iter().find(|reason| **reason > 0);
    first.map_or(DONE, |reason| (10, 0, *reason))
}

impl Limits {
    pub(super) fn symbols(&mut self) {
        for (section, of_section) in SECTIONS {
            for (kind, of_type) in [(0, 0), (TLS, 6), (IFUNC, 6)] {
                let symbol = Symbol::new(GLOBAL + kind, section, 4);
                let of_target = if section == 1 { 0 } else { 7 };
                let name = format!("section {section:#x}, type {kind}");
                let stated = answer(&[of_section, of_type]);
                self.add(&name, code(WORD, symbol), stated);
                let stated = answer(&[of_section, of_type, of_target]);
                let name = format!("a label, {name}");
                self.add(name, code(PCREL_LO12_I, symbol), stated);
            }
        }
        for (symbol, reason) in [(8_191, 0), (8_192, 1)] {
            let symbols = vec![Symbol::absolute(7); 8_191];
            let list = [Relocation::new(0, WORD, symbol, 0)];
            let fit = super::code(&symbols, &list);
            self.add(format!("symbol {symbol} of 8,192"), fit, answer(&[reason]));
        }
    }
}

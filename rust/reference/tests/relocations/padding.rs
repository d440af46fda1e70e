//! Check 14: ALIGN on its boundary and beside it.

use crate::fits::*;
use crate::{Answer, Case, DONE};
use testing::build::*;

/// A, and "the smallest power of two at least A + 2".
const BOUNDARIES: [(u64, u64); 12] = [
    (0, 2),
    (2, 4),
    (4, 8),
    (6, 8),
    (8, 16),
    (12, 16),
    (14, 16),
    (16, 32),
    (30, 32),
    (32, 64),
    (62, 64),
    (64, 128),
];

/// The longer ones, for which most of a section is padding.
const LONG: [(u64, u64); 8] = [
    (126, 128),
    (128, 256),
    (254, 256),
    (510, 512),
    (1_022, 1_024),
    (1_024, 2_048),
    (2_046, 2_048),
    (4_094, 4_096),
];

/// ALIGN at an offset of a section of this size. Its symbol is not there.
fn padded(address: u64, size: u64, offset: u64, addend: u64) -> Fit {
    let list = [Relocation::new(offset, ALIGN, 77, addend as i64)];
    at(address, &vec![0x13; size as usize], &[], &list)
}

fn case(address: u64, size: u64, offset: u64, addend: u64, answer: Answer) -> Case {
    let name = format!("A {addend} at {address:x} + {offset}, of {size}");
    Case::new(name, &padded(address, size, offset, addend), answer)
}

/// At every offset up to 33, in a section of its own size.
fn offsets() -> Vec<Case> {
    let mut cases = Vec::new();
    for (addend, boundary) in BOUNDARIES {
        for offset in 0..=33 {
            let end = PLACE + offset + addend;
            let answer = if end.is_multiple_of(boundary) {
                DONE
            } else {
                (14, 0, 0)
            };
            cases.push(case(PLACE, offset + addend, offset, addend, answer));
        }
    }
    cases
}

/// The padding ends on the boundary, on half of it, and two bytes beside it.
fn long() -> Vec<Case> {
    let mut cases = Vec::new();
    for (addend, boundary) in LONG {
        let rows = [
            (boundary, DONE),
            (boundary + 2, (14, 0, 0)),
            (boundary + boundary / 2, (14, 0, 0)),
            (boundary + 1, (14, 0, 0)),
        ];
        for (end, answer) in rows {
            cases.push(case(0x8000, end, end - addend, addend, answer));
        }
    }
    cases
}

/// The address counts, and not the offset.
fn addresses() -> Vec<Case> {
    let rows: [(u64, u64, u64, Answer); 16] = [
        (0x1002, 0, 6, DONE),
        (0x1000, 0, 6, (14, 0, 0)),
        (0x1001, 1, 6, DONE),
        (0x1001, 2, 6, (14, 0, 0)),
        (0x1000, 0, 0, DONE),
        (0x1001, 0, 0, (14, 0, 0)),
        (0x1001, 1, 0, DONE),
        (0x1006, 0, 2, DONE),
        (0x1004, 0, 2, (14, 0, 0)),
        (0x1005, 0, 2, (14, 0, 0)),
        (0, 0, 0, DONE),
        (0, 0, 2, (14, 0, 0)),
        (0, 2, 6, DONE),
        (0x7FFF_FFFC, 0, 4, DONE),
        (0x7FFF_FFFE, 0, 2, DONE),
        (0x7FFF_FFFE, 0, 4, (14, 0, 0)),
    ];
    rows.map(|(address, offset, addend, answer)| case(address, 12, offset, addend, answer))
        .into_iter()
        .collect()
}

/// A section that ends at 2^32, padded up to there.
fn top() -> Vec<Case> {
    let rows: [(u64, u64, u64, Answer); 6] = [
        (0xFFFF_FFF0, 16, 0, DONE),
        (0xFFFF_FFF0, 14, 2, DONE),
        (0xFFFF_FFF0, 2, 14, DONE),
        (0xFFFF_FFF0, 1, 14, (14, 0, 0)),
        (0xFFFF_FFF0, 0, 14, (14, 0, 0)),
        (0xFFFF_FFF0, 16, 2, (9, 0, 0)),
    ];
    rows.map(|(address, offset, addend, answer)| case(address, 16, offset, addend, answer))
        .into_iter()
        .collect()
}

/// Several in one section; ALIGN touches no byte of what stands around it.
fn several() -> Vec<Case> {
    let with = |name: &str, last: i64, answer| {
        let list = [
            Relocation::new(0, ALIGN, 0, 0),
            Relocation::new(2, ALIGN, 5, 2),
            Relocation::new(3, WORD, 1, 0),
            Relocation::new(6, ALIGN, 9, 2),
            Relocation::new(10, ALIGN, 9, last),
        ];
        let symbols = [Symbol::absolute(0x0102_0304)];
        Case::new(name, &at(PLACE, &[0x13; 16], &symbols, &list), answer)
    };
    vec![
        with("ALIGN around a word", 6, DONE),
        with("the fourth ALIGN is off", 4, (14, 4, 0)),
    ]
}

pub fn cases() -> Vec<Case> {
    let mut cases = offsets();
    cases.extend(long());
    cases.extend(addresses());
    cases.extend(top());
    cases.extend(several());
    cases
}

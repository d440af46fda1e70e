//! Check 9: each sentence about type, offset, overlap and addend just kept and
//! just broken, with the answer.

use crate::fits::*;
use crate::{Answer, Case, DONE};
use testing::build::*;

/// The ends of A in class 1.
const LOWEST: i64 = i32::MIN as i64;
const HIGHEST: i64 = i32::MAX as i64;

/// A name, the section's size, relocations as offset, type and A, the answer.
type Row = (&'static str, usize, Vec<(u64, u32, i64)>, Answer);

/// A section of zeros, with relocations against symbol 1, which is absolute 0;
/// markers name a symbol that is not there.
fn zeros(size: usize, relocations: &[(u64, u32, i64)]) -> Fit {
    let relocation = |(offset, kind, addend): &(u64, u32, i64)| {
        let symbol = if MARKERS.contains(kind) { 999 } else { 1 };
        Relocation::new(*offset, *kind, symbol, *addend)
    };
    let list: Vec<Relocation> = relocations.iter().map(relocation).collect();
    at(PLACE, &vec![0; size], &[Symbol::absolute(0)], &list)
}

/// "Record offsets never fall."
fn offsets() -> Vec<Row> {
    let row = |name, first, second, answer| (name, 12, vec![first, second], answer);
    vec![
        row("rises", (0, WORD, 0), (4, WORD, 0), DONE),
        row("falls", (4, WORD, 0), (0, WORD, 0), (9, 1, 0)),
        row("falls by one", (5, WORD, 0), (4, WORD, 0), (9, 1, 0)),
        row("markers stay", (4, RELAX, 0), (4, NONE, 0), DONE),
        row("markers fall", (4, RELAX, 0), (3, RELAX, 0), (9, 1, 0)),
        row("NONE falls", (4, NONE, 0), (3, NONE, 0), (9, 1, 0)),
        row("ALIGN falls", (4, RELAX, 0), (2, ALIGN, 0), (9, 1, 0)),
        row("falls after ALIGN", (4, ALIGN, 0), (2, RELAX, 0), (9, 1, 0)),
        row(
            "falls after a marker",
            (4, RELAX, 0),
            (0, WORD, 0),
            (9, 1, 0),
        ),
        row("a marker falls", (4, WORD, 0), (3, NONE, 0), (9, 1, 0)),
        row("marker at a word", (4, WORD, 0), (4, RELAX, 0), DONE),
        row("marker in a word", (4, WORD, 0), (6, RELAX, 0), DONE),
        row("word at a marker", (4, RELAX, 0), (4, WORD, 0), DONE),
        row("word at an odd offset", (0, NONE, 0), (3, WORD, 0), DONE),
    ]
}

/// "a marker's offset is at most the row size"
fn marker_offsets() -> Vec<Row> {
    let row = |name, size, offset, kind, answer| (name, size, vec![(offset, kind, 0)], answer);
    let mut rows = vec![row("ALIGN far off", 8, u64::MAX - 1, ALIGN, (9, 0, 0))];
    for kind in MARKERS {
        rows.push(row("marker at the size", 8, 8, kind, DONE));
        rows.push(row("marker one past the size", 8, 9, kind, (9, 0, 0)));
        rows.push(row("marker two past the size", 8, 10, kind, (9, 0, 0)));
        rows.push(row("marker in an empty section", 0, 0, kind, DONE));
        rows.push(row("marker past an empty section", 0, 1, kind, (9, 0, 0)));
        rows.push(row("marker far off", 8, u64::MAX, kind, (9, 0, 0)));
        rows.push(row("marker at 2^31", 8, 1 << 31, kind, (9, 0, 0)));
    }
    rows
}

/// "The bytes touched lie in the row", for every type.
fn ends() -> Vec<Case> {
    let mut cases = Vec::new();
    for (kind, word, width) in STORING {
        let end = 16 + width as u64;
        let code = [words(&[0x17, 0, 0, 0]), low_bytes(word, width)].concat();
        let symbol = if matches!(kind, 24 | 25) { 2 } else { 1 };
        let symbols = [Symbol::absolute(PLACE + 16), Symbol::new(0, 1, 0)];
        let mut add = |offset: u64, size: usize, answer| {
            let list = [
                Relocation::new(0, PCREL_HI20, 1, 0),
                Relocation::new(offset, kind, symbol, 0),
            ];
            let fit = at(PLACE, &code[..size], &symbols, &list);
            let name = format!("type {kind} at {offset} of {size}");
            cases.push(Case::new(name, &fit, answer));
        };
        let size = code.len();
        add(16, size, DONE);
        add(16, size - 1, (9, 1, 0));
        add(17, size, (9, 1, 0));
        add(end, size, (9, 1, 0));
        add(u64::MAX, size, (9, 1, 0));
        add(0_u64.wrapping_sub(width as u64), size, (9, 1, 0));
    }
    cases
}

/// "A non-marker starts at or after the end of the previous non-marker".
fn overlaps() -> Vec<Case> {
    let mut cases = Vec::new();
    for (first, width) in [(ADD8, 1), (SET16, 2), (WORD, 4), (SUB64, 8)] {
        for second in [WORD, WORD_PCREL, ADD8, SUB16, SET32, ADD64, SUB6] {
            for offset in 1..=width {
                let answer = if offset < width { (9, 1, 0) } else { DONE };
                let fit = zeros(16, &[(0, first, 0), (offset, second, 0)]);
                let name = format!("type {first}, and type {second} {offset} behind");
                cases.push(Case::new(name, &fit, answer));
            }
        }
    }
    cases
}

/// Data in each byte of an instruction, and right behind it. The instruction's
/// form is right, so that only the overlap can be wrong.
fn data_in_instructions() -> Vec<Case> {
    let mut cases = Vec::new();
    // A PCREL_LO12 would need its pair too.
    let is_alone = |kind: &u32| !matches!(*kind, PCREL_LO12_I | PCREL_LO12_S);
    let instructions = STORING.into_iter().filter(|(_, word, _)| *word != 0);
    for (first, word, width) in instructions.filter(|(kind, _, _)| is_alone(kind)) {
        for second in [WORD, SUB6] {
            for offset in 1..=width {
                let code = [low_bytes(word, width), vec![0; 4]].concat();
                let fit = two((first, 0), (second, offset as u64), &code);
                let answer = if offset < width { (9, 1, 0) } else { DONE };
                let name = format!("type {first}, and data {second} {offset} behind");
                cases.push(Case::new(name, &fit, answer));
            }
        }
    }
    cases
}

/// Two relocations by type and offset, towards the section's start.
fn two(first: (u32, u64), second: (u32, u64), code: &[u8]) -> Fit {
    let list = [first, second].map(|(kind, offset)| Relocation::new(offset, kind, 1, 0));
    at(PLACE, code, &[Symbol::absolute(PLACE)], &list)
}

/// The type of a relocation at 0, type and offset of a second one, the
/// section's words, the answer.
type Overlap = (u32, (u32, u64), &'static [u32], Answer);

/// Both relocations find the instruction that they ask for.
const INSTRUCTIONS: [Overlap; 26] = [
    (CALL, (LO12_I, 4), &[0x97, 0x80E7], (9, 1, 0)),
    (CALL, (LO12_I, 8), &[0x97, 0x80E7, 0x13], DONE),
    (CALL_PLT, (LO12_I, 4), &[0x97, 0x80E7], (9, 1, 0)),
    (CALL_PLT, (LO12_I, 8), &[0x97, 0x80E7, 0x13], DONE),
    (CALL, (PCREL_HI20, 2), &[0x0017_0097, 0x80E7], (9, 1, 0)),
    (CALL, (JAL, 2), &[0x006F_0097, 0x80E7], (9, 1, 0)),
    (CALL, (JAL, 8), &[0x97, 0x80E7, 0x6F], DONE),
    (CALL, (RVC_JUMP, 2), &[0xA001_0097, 0x80E7], (9, 1, 0)),
    // Through x3: bit 16 belongs to rs1, and to the jump's quadrant.
    (CALL, (RVC_JUMP, 6), &[0x197, 0xA001_80E7], (9, 1, 0)),
    (CALL, (RVC_JUMP, 8), &[0x97, 0x80E7, 0xA001], DONE),
    (JAL, (RVC_JUMP, 2), &[0xA001_006F], (9, 1, 0)),
    (JAL, (RVC_JUMP, 4), &[0x6F, 0xA001], DONE),
    (JAL, (JAL, 2), &[0x006F_006F, 0], (9, 1, 0)),
    (JAL, (JAL, 4), &[0x6F, 0x6F], DONE),
    (BRANCH, (RVC_BRANCH, 2), &[0xC101_0063], (9, 1, 0)),
    (BRANCH, (RVC_BRANCH, 4), &[0x63, 0xC101], DONE),
    (RVC_BRANCH, (RVC_JUMP, 2), &[0xA001_C101], DONE),
    (RVC_JUMP, (JAL, 2), &[0x006F_A001, 0], DONE),
    (HI20, (LO12_I, 2), &[0x0013_0037, 0], (9, 1, 0)),
    (HI20, (LO12_I, 4), &[0x37, 0x13], DONE),
    (PCREL_HI20, (LO12_S, 2), &[0x0023_0017, 0], (9, 1, 0)),
    (PCREL_HI20, (LO12_S, 4), &[0x17, 0x23], DONE),
    (WORD, (JAL, 2), &[0x006F_0000, 0], (9, 1, 0)),
    (SET16, (JAL, 2), &[0x006F_0000, 0], DONE),
    (ADD64, (CALL, 4), &[0, 0x97, 0x80E7], (9, 1, 0)),
    (ADD64, (CALL, 8), &[0, 0, 0x97, 0x80E7], DONE),
];

/// The two together, and each alone, which is done: only the overlap can be
/// wrong.
fn overlapping_instructions() -> Vec<Case> {
    let mut cases = Vec::new();
    for (first, second, code, answer) in INSTRUCTIONS {
        let name = format!("type {first}, and type {} at {}", second.0, second.1);
        let fit = two((first, 0), second, &words(code));
        cases.push(Case::new(&name, &fit, answer));
        for other in [1, 0] {
            let mut fit = fit.clone();
            fit.sections[3].relocations_mut().remove(other);
            let name = format!("{name}: without number {other}");
            cases.push(Case::new(name, &fit, DONE));
        }
    }
    // No word is both a jalr and a jal, so that 11 is broken too: 9 is first.
    let fit = two((CALL, 0), (JAL, 4), &words(&[0x97, 0x80E7]));
    cases.push(Case::new("JAL at a call's jalr", &fit, (9, 1, 0)));
    cases
}

fn markers_between() -> Vec<Row> {
    let over = |name, between: &[(u64, u32, i64)], offset, answer| {
        let mut list = vec![(0, WORD, 0)];
        list.extend(between);
        list.push((offset, WORD, 0));
        (name, 16, list, answer)
    };
    let many = [(1, NONE, 0), (2, RELAX, 0), (2, ALIGN, 0), (3, NONE, 0)];
    vec![
        over("overlap past RELAX", &[(2, RELAX, 0)], 3, (9, 2, 0)),
        over("overlap past NONE", &[(3, NONE, 0)], 3, (9, 2, 0)),
        over("overlap past ALIGN", &[(2, ALIGN, 0)], 3, (9, 2, 0)),
        over("overlap past many", &many, 3, (9, 5, 0)),
        over("no overlap past many", &many, 4, DONE),
        over("equal offset past a marker", &[(0, RELAX, 0)], 0, (9, 2, 0)),
    ]
}

/// Equal offsets: only ADD, SUB and SET of one width may share a place.
fn equal_offsets() -> Vec<Case> {
    const STACKING: [(u32, u32); 13] = [
        (SUB6, 6),
        (SET6, 6),
        (ADD8, 8),
        (SUB8, 8),
        (SET8, 8),
        (ADD16, 16),
        (SUB16, 16),
        (SET16, 16),
        (ADD32, 32),
        (SUB32, 32),
        (SET32, 32),
        (ADD64, 64),
        (SUB64, 64),
    ];
    let others = [(WORD, 0), (WORD_PCREL, 0)];
    let all: Vec<(u32, u32)> = STACKING.into_iter().chain(others).collect();
    let pairs = all.iter().flat_map(|a| all.iter().map(move |b| (a, b)));
    pairs
        .map(|((first, width), (second, other))| {
            let may_share = *width > 0 && width == other;
            let answer = if may_share { DONE } else { (9, 1, 0) };
            let fit = zeros(8, &[(0, *first, 0), (0, *second, 0)]);
            Case::new(format!("{first} and {second} at one offset"), &fit, answer)
        })
        .collect()
}

/// Instructions at one offset, of one type and of two.
fn equal_instructions() -> Vec<Case> {
    let rows = [
        (JAL, JAL, 0x6F, 4),
        (BRANCH, BRANCH, 0x63, 4),
        (HI20, HI20, 0x37, 4),
        (LO12_I, LO12_I, 0x13, 4),
        (CALL, CALL_PLT, AUIPC_JALR, 8),
        (RVC_JUMP, RVC_JUMP, 0xA001, 2),
        (JAL, ADD32, 0x6F, 4),
        (ADD32, JAL, 0x6F, 4),
        (SET32, HI20, 0x37, 4),
    ];
    let case = |(first, second, word, width): (u32, u32, u64, usize)| {
        let list = [first, second].map(|kind| Relocation::new(0, kind, 1, 0));
        let symbols = [Symbol::absolute(PLACE)];
        let fit = at(PLACE, &low_bytes(word, width), &symbols, &list);
        Case::new(
            format!("{first} and {second} at one offset"),
            &fit,
            (9, 1, 0),
        )
    };
    rows.map(case).into_iter().collect()
}

/// "A must be 0" (24, 25).
fn low_half_addends() -> Vec<Case> {
    let mut cases = Vec::new();
    for (kind, opcode) in [(PCREL_LO12_I, 0x13), (PCREL_LO12_S, 0x23)] {
        let addends = [0, 1, -1, 2, 256, 4_096, 65_536, 1 << 24, LOWEST, HIGHEST];
        for addend in addends {
            let list = [
                Relocation::new(0, PCREL_HI20, 1, 0),
                Relocation::new(4, kind, 2, addend),
            ];
            let symbols = [Symbol::absolute(PLACE), Symbol::new(0, 1, 0)];
            let fit = at(PLACE, &words(&[0x17, opcode]), &symbols, &list);
            let answer = if addend == 0 { DONE } else { (9, 1, 0) };
            cases.push(Case::new(format!("type {kind}, A {addend}"), &fit, answer));
        }
    }
    cases
}

/// ALIGN: "A even, 0 to 4,094, offset + A inside the row". P + A is a multiple
/// of 4,096 wherever A is from 0 to 4,096.
fn align_addends() -> Vec<Case> {
    let rows: [(i64, usize, Answer); 17] = [
        (0, 0, DONE),
        (2, 2, DONE),
        (2, 3, DONE),
        (2, 1, (9, 0, 0)),
        (2, 0, (9, 0, 0)),
        (1, 8, (9, 0, 0)),
        (3, 8, (9, 0, 0)),
        (6, 6, DONE),
        (6, 5, (9, 0, 0)),
        (-1, 8, (9, 0, 0)),
        (-2, 8, (9, 0, 0)),
        (4_094, 4_094, DONE),
        (4_094, 4_093, (9, 0, 0)),
        (4_095, 4_096, (9, 0, 0)),
        (4_096, 4_096, (9, 0, 0)),
        (HIGHEST - 1, 8, (9, 0, 0)),
        (LOWEST, 8, (9, 0, 0)),
    ];
    let case = |(addend, room, answer): (i64, usize, Answer)| {
        let offset = 4_096 - addend.clamp(0, 4_096) as u64;
        let fit = zeros(offset as usize + room, &[(offset, ALIGN, addend)]);
        Case::new(
            format!("ALIGN, A {addend}, {room} bytes left"),
            &fit,
            answer,
        )
    };
    rows.map(case).into_iter().collect()
}

pub fn cases() -> Vec<Case> {
    let rows = [offsets(), marker_offsets(), markers_between()].concat();
    let case = |(name, size, list, answer): &Row| Case::new(*name, &zeros(*size, list), *answer);
    let mut cases: Vec<Case> = rows.iter().map(case).collect();
    cases.extend(ends());
    cases.extend(overlaps());
    cases.extend(data_in_instructions());
    cases.extend(overlapping_instructions());
    cases.extend(equal_offsets());
    cases.extend(equal_instructions());
    cases.extend(low_half_addends());
    cases.extend(align_addends());
    cases
}

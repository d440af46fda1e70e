//! Ticket 1: what only class 2 has, each sentence just kept and just broken, with
//! the answer and the bytes.

use crate::fits::*;
use crate::{Answer, Case, DONE};
use testing::build::*;

/// Where class 1 has no address.
const FAR: u64 = 0x8000_0000_0000_1000;
/// The last address.
const TOP: u64 = u64::MAX;

/// "for 18, 19, 23 and 26 the distance or address, read as a signed 64-bit
/// number, lies in -2,147,485,696..2,147,481,599"
const LOWEST: i64 = -2_147_485_696;
const HIGHEST: i64 = 2_147_481_599;

/// A distance of 23 or an address of 26, and the high half.
const REACHED: [(i64, u32); 8] = [
    (LOWEST, 0x8_0000),
    (LOWEST + 4_095, 0x8_0000),
    (LOWEST + 4_096, 0x8_0001),
    (-1, 0),
    (0, 0),
    (0x7FF, 0),
    (0x800, 1),
    (HIGHEST, 0x7_FFFF),
];

/// Distances and addresses that are too far.
const TOO_FAR: [i64; 10] = [
    LOWEST - 1,
    LOWEST - 2,
    HIGHEST + 1,
    HIGHEST + 3,
    1 << 31,
    1 << 32,
    -(1 << 32),
    1 << 62,
    i64::MAX - 1,
    i64::MIN,
];

fn high_halves() -> Vec<Case> {
    let mut cases = Vec::new();
    for (kind, opcode) in [(PCREL_HI20, 0x517), (HI20, 0x537)] {
        for place in [PLACE, 1 << 31, 1 << 32, FAR, TOP - 15] {
            let from = if kind == HI20 { 0 } else { place };
            let fit = |x: i64| one_64(kind, &words(&[opcode]), place, from.wrapping_add_signed(x));
            let name = |x: i64| format!("type {kind} from {place:x}, {x}");
            for (x, high) in REACHED {
                let after = words(&[high << 12 | opcode]);
                cases.push(Case::done(name(x), &fit(x), &after));
            }
            cases.extend(TOO_FAR.map(|x| Case::new(name(x), &fit(x), (13, 0, 0))));
        }
    }
    cases
}

/// "18 and 19 also need an even distance."
fn calls() -> Vec<Case> {
    let rows: [(i64, u32, u32); 7] = [
        (LOWEST, 0x8000_0097, 0x8000_80E7),
        (LOWEST + 2, 0x8000_0097, 0x8020_80E7),
        (-2, 0x0000_0097, 0xFFE0_80E7),
        (0, 0x0000_0097, 0x0000_80E7),
        (0x7FE, 0x0000_0097, 0x7FE0_80E7),
        (0x800, 0x0000_1097, 0x8000_80E7),
        (HIGHEST - 1, 0x7FFF_F097, 0x7FE0_80E7),
    ];
    let code = words(&[0x97, 0x80E7]);
    let mut cases = Vec::new();
    for kind in [CALL, CALL_PLT] {
        for place in [0, FAR, TOP - 15] {
            let fit = |x: i64| one_64(kind, &code, place, place.wrapping_add_signed(x));
            let name = |x: i64| format!("type {kind} from {place:x}, {x}");
            for (x, first, second) in rows {
                let after = words(&[first, second]);
                cases.push(Case::done(name(x), &fit(x), &after));
                cases.push(Case::new(name(x + 1), &fit(x + 1), (13, 0, 0)));
            }
            cases.extend(TOO_FAR.map(|x| Case::new(name(x), &fit(x), (13, 0, 0))));
        }
    }
    cases
}

/// 16, 17, 44 and 45: the distance and T go around 2^64, and not around 2^32.
fn jumps() -> Vec<Case> {
    let rows: [(u64, u64, i64, Answer); 15] = [
        (0, 2, 0, DONE),
        (0, TOP - 1, 0, DONE),
        (TOP - 15, 0, 0, DONE),
        (TOP - 15, TOP - 1, 0, DONE),
        (0, 0xFFFF_FFFE, 0, (13, 0, 0)),
        (0xFFFF_FFF0, 0, 0, (13, 0, 0)),
        (0xFFFF_FFF0, 1 << 32, 0, DONE),
        (1 << 32, 0xFFFF_FFF0, 0, DONE),
        ((1 << 63) - 8, 1 << 63, 0, DONE),
        (1 << 63, (1 << 63) - 8, 0, DONE),
        (0, 1 << 32, 0, (13, 0, 0)),
        (FAR, PLACE, 0, (13, 0, 0)),
        (0, TOP - 1, 4, DONE),
        (TOP - 15, 2, -4, DONE),
        (0, 1 << 63, i64::MIN, DONE),
    ];
    let kinds = [
        (BRANCH, 0x63, 4),
        (JAL, 0x6F, 4),
        (RVC_BRANCH, 0xC101, 2),
        (RVC_JUMP, 0xA001, 2),
    ];
    let mut cases = Vec::new();
    for (kind, word, width) in kinds {
        for (place, s, addend, answer) in rows {
            let list = [Relocation::new(0, kind, 1, addend)];
            let symbols = [Symbol::absolute(s)];
            let fit = at_64(place, &low_bytes(word, width), &symbols, &list);
            let name = format!("type {kind} from {place:x} to {s:x} + {addend}");
            cases.push(Case::new(name, &fit, answer));
        }
    }
    cases
}

const S: u64 = 0xFEDC_BA98_7654_3210;
const WORD_64: u32 = 2;

/// Type, eight bytes from V on, S, A, and the eight bytes after it, at PLACE.
type Row = (u32, u64, u64, i64, u64);

/// "Type 2 (word64, T)", "types 1 and 57 still write the low 32 bits", and sums
/// that wrap at the field's width.
const DATA: [Row; 28] = [
    (WORD_64, 0, S, 0, S),
    (WORD_64, TOP, S, -1, S - 1),
    (WORD_64, 0, TOP, 0, TOP),
    (WORD_64, 0, TOP, 1, 0),
    (WORD_64, 0, 0, -1, TOP),
    (WORD_64, 0, 1 << 63, i64::MIN, 0),
    (WORD_64, 0, 0xFFFF_FFFF, 1, 1 << 32),
    (WORD, TOP, S, 0, 0xFFFF_FFFF_7654_3210),
    (WORD, 0, 1 << 32, 0, 0),
    (WORD, 0, TOP, 1, 0),
    (WORD_PCREL, 0, S, 0, 0x7654_2210),
    (WORD_PCREL, 0, 0, 0, 0xFFFF_F000),
    (WORD_PCREL, 0, 1 << 63, 0, 0xFFFF_F000),
    (ADD64, 1, S, 0, S + 1),
    (ADD64, TOP, TOP, i64::MAX, i64::MAX as u64 - 2),
    (ADD64, 0, TOP, 1, 0),
    (SUB64, S, S, 0, 0),
    (SUB64, 0, TOP, i64::MIN, (1 << 63) + 1),
    (ADD32, TOP, S, 1, 0xFFFF_FFFF_7654_3210),
    (SUB32, 0, S, 0, 0x89AB_CDF0),
    (ADD16, 0, S, 0, 0x3210),
    (SUB16, 0, S, i64::MIN, 0xCDF0),
    (ADD8, 0xFF00, S, 1, 0xFF11),
    (SUB8, 0, S, 0, 0xF0),
    (SET32, TOP, S, 0, 0xFFFF_FFFF_7654_3210),
    (SET16, 0, S, i64::MIN, 0x3210),
    (SET6, 0x80, S, 0, 0x90),
    (SUB6, 0xC0, S, 0, 0xF0),
];

fn data() -> Vec<Case> {
    let case = |(kind, before, s, addend, after): Row| {
        let list = [Relocation::new(0, kind, 1, addend)];
        let symbols = [Symbol::absolute(s)];
        let fit = at_64(PLACE, &before.to_le_bytes(), &symbols, &list);
        let name = format!("type {kind} on {before:x}, {s:x} + {addend}");
        Case::done(name, &fit, &after.to_le_bytes())
    };
    DATA.map(case).into()
}

/// Shapes of type 2: eight bytes, at any address, which it shares with none.
fn words_of_64() -> Vec<Case> {
    type Row = (&'static str, usize, &'static [(u64, u32)], Answer);
    let rows: [Row; 9] = [
        ("alone", 8, &[(0, WORD_64)], DONE),
        ("at an odd address", 9, &[(1, WORD_64)], DONE),
        ("a byte too few", 8, &[(1, WORD_64)], (9, 0, 0)),
        ("two", 16, &[(0, WORD_64), (8, WORD_64)], DONE),
        ("overlapping", 16, &[(0, WORD_64), (7, WORD_64)], (9, 1, 0)),
        ("twice", 8, &[(0, WORD_64), (0, WORD_64)], (9, 1, 0)),
        ("before ADD64", 8, &[(0, WORD_64), (0, ADD64)], (9, 1, 0)),
        ("behind ADD64", 8, &[(0, ADD64), (0, WORD_64)], (9, 1, 0)),
        ("and a word", 12, &[(0, WORD_64), (8, WORD)], DONE),
    ];
    let case = |(name, size, list, answer): Row| {
        let relocation = |(offset, kind): &(u64, u32)| Relocation::new(*offset, *kind, 1, 0);
        let list: Vec<Relocation> = list.iter().map(relocation).collect();
        let fit = at_64(PLACE, &vec![0; size], &[Symbol::absolute(S)], &list);
        Case::new(format!("type 2 {name}"), &fit, answer)
    };
    rows.map(case).into()
}

/// "In class 2, opcode 0x1B with funct3 0 joins the _I forms, RVC_JUMP funct3 1
/// gives 11"
fn forms() -> Vec<Case> {
    let mut cases = Vec::new();
    for funct3 in 0..8 {
        let answer = if funct3 == 0 { DONE } else { (11, 0, 0) };
        let code = words(&[0x0005_051B | funct3 << 12, 0x17]);
        let symbols = [Symbol::absolute(PLACE), Symbol::new(0, 1, 4)];
        for (kind, symbol) in [(LO12_I, 1), (PCREL_LO12_I, 2)] {
            let list = [
                Relocation::new(0, kind, symbol, 0),
                Relocation::new(4, PCREL_HI20, 1, 0),
            ];
            let fit = at_64(PLACE, &code, &symbols, &list);
            let name = format!("type {kind} on 0x1B with funct3 {funct3}");
            cases.push(Case::new(name, &fit, answer));
        }
        for (kind, code) in [(LO12_S, 0x0005_051B), (HI20, 0x51B), (PCREL_HI20, 0x51B)] {
            let fit = one_64(kind, &words(&[code | funct3 << 12]), PLACE, PLACE);
            let name = format!("type {kind} on 0x1B with funct3 {funct3}");
            cases.push(Case::new(name, &fit, (11, 0, 0)));
        }
        for quadrant in 0..4 {
            let word = (funct3 << 13) | 0x0A54 | quadrant;
            let is_right = quadrant == 1 && funct3 == 5;
            let fit = one_64(RVC_JUMP, &low_bytes(u64::from(word), 2), PLACE, PLACE);
            let answer = if is_right { DONE } else { (11, 0, 0) };
            cases.push(Case::new(format!("RVC_JUMP on {word:x}"), &fit, answer));
        }
    }
    let addiw = one_64(LO12_I, &words(&[0x0005_051B]), FAR, 0x1234_5FFF);
    cases.push(Case::done("addiw", &addiw, &words(&[0xFFF5_051B])));
    cases
}

/// "Type numbers above 255 give 9", at their turn.
fn types() -> Vec<Case> {
    let mut cases = Vec::new();
    for low in (0..58).chain([255]) {
        for high in [1, 256, 1 << 16, (1 << 24) - 1] {
            let kind = high << 8 | low;
            let list = [
                Relocation::new(0, WORD, 1, 0),
                Relocation::new(4, kind, 1, 0),
            ];
            let fit = at_64(PLACE, &[0; 12], &[Symbol::absolute(0)], &list);
            cases.push(Case::new(format!("type {kind:#x}"), &fit, (9, 1, 0)));
        }
    }
    cases
}

/// Offsets, addends and labels count with all 64 bits.
fn whole_numbers() -> Vec<Case> {
    const ABOVE: u64 = 1 << 32;
    let mut cases = Vec::new();
    let offsets = [ABOVE, ABOVE + 4, 1 << 63, TOP, TOP - 3, TOP - 7];
    for offset in offsets {
        for kind in [WORD, WORD_64, ADD64, NONE, RELAX, ALIGN] {
            let list = [Relocation::new(offset, kind, 1, 0)];
            let fit = at_64(PLACE, &[0; 8], &[Symbol::absolute(0)], &list);
            let name = format!("type {kind} at {offset:x}");
            cases.push(Case::new(name, &fit, (9, 0, 0)));
        }
    }
    for addend in [1 << 32, (1 << 32) + 6, -(1 << 32), i64::MIN, i64::MAX - 1] {
        let list = [Relocation::new(0, ALIGN, 0, addend)];
        let fit = at_64(PLACE, &[0; 16], &[], &list);
        cases.push(Case::new(format!("ALIGN, A {addend}"), &fit, (9, 0, 0)));
    }
    let rows: [(u64, u64, Answer); 8] = [
        (8, 8, DONE),
        (8, ABOVE + 8, (12, 0, 0)),
        (ABOVE + 8, 8, (12, 0, 0)),
        (ABOVE + 8, ABOVE + 8, (9, 1, 0)),
        (TOP, TOP, (9, 1, 0)),
        (TOP, TOP - 1, (12, 0, 0)),
        (1 << 63, 1 << 63, (9, 1, 0)),
        (1 << 63, 0, (12, 0, 0)),
    ];
    for (high, label, answer) in rows {
        let symbols = [Symbol::absolute(PLACE), Symbol::new(0, 1, label)];
        let list = [
            Relocation::new(0, PCREL_LO12_I, 2, 0),
            Relocation::new(high, PCREL_HI20, 1, 0),
        ];
        let fit = at_64(PLACE, &words(&[0x13, 0, 0x17]), &symbols, &list);
        let name = format!("label {label:x}, pair at {high:x}");
        cases.push(Case::new(name, &fit, answer));
    }
    let symbols = [1, 2, 256, 1 << 24, u32::MAX].map(|symbol| {
        let list = [Relocation::new(0, WORD, symbol, 0)];
        let answer = if symbol == 1 { DONE } else { (10, 0, 1) };
        let fit = at_64(PLACE, &[0; 4], &[Symbol::absolute(0)], &list);
        Case::new(format!("symbol {symbol:#x}"), &fit, answer)
    });
    cases.extend(symbols);
    cases
}

/// The low half is of the pair's distance, which may go around 2^64; no low half
/// has a range of its own.
fn pairs() -> Vec<Case> {
    let code = words(&[0x517, 0x5_0513, 0xA5_2023]);
    let with = |place: u64, distance: i64| {
        let target = place.wrapping_add_signed(distance);
        let symbols = [Symbol::absolute(target), Symbol::new(0, 1, 0)];
        let list = [
            Relocation::new(0, PCREL_HI20, 1, 0),
            Relocation::new(4, PCREL_LO12_I, 2, 0),
            Relocation::new(8, PCREL_LO12_S, 2, 0),
        ];
        at_64(place, &code, &symbols, &list)
    };
    let mut cases = Vec::new();
    for place in [PLACE, FAR, TOP - 15] {
        let lowest = words(&[0x8000_0517, 0x8005_0513, 0x80A5_2023]);
        let highest = words(&[0x7FFF_F517, 0x7FF5_0513, 0x7EA5_2FA3]);
        let name = |what: &str| format!("pair from {place:x}, {what}");
        cases.push(Case::done(name("lowest"), &with(place, LOWEST), &lowest));
        cases.push(Case::done(name("highest"), &with(place, HIGHEST), &highest));
        cases.push(Case::new(
            name("lower"),
            &with(place, LOWEST - 1),
            (13, 0, 0),
        ));
        cases.push(Case::new(
            name("higher"),
            &with(place, HIGHEST + 1),
            (13, 0, 0),
        ));
    }
    // The low half comes first, and its pair is too far: the pair is named.
    for distance in [LOWEST - 1, HIGHEST + 1, i64::MIN] {
        let target = (PLACE + 4).wrapping_add_signed(distance);
        let symbols = [Symbol::absolute(target), Symbol::new(0, 1, 4)];
        let list = [
            Relocation::new(0, PCREL_LO12_I, 2, 0),
            Relocation::new(4, PCREL_HI20, 1, 0),
        ];
        let fit = at_64(PLACE, &words(&[0x5_0513, 0x517]), &symbols, &list);
        cases.push(Case::new(
            format!("a far pair, {distance}"),
            &fit,
            (13, 1, 0),
        ));
    }
    // Low halves of an address that no high half leads to.
    for (kind, before, after) in [
        (LO12_I, 0x5_0513, 0x2105_0513),
        (LO12_S, 0xA5_2023, 0x20A5_2823),
    ] {
        let fit = one_64(kind, &words(&[before]), PLACE, S);
        let name = format!("type {kind} of {S:x}");
        cases.push(Case::done(name, &fit, &words(&[after])));
    }
    cases
}

/// A section that ends at 2^64, padded up to there, and padding elsewhere.
fn padding() -> Vec<Case> {
    let rows: [(u64, u64, i64, Answer); 9] = [
        (TOP - 15, 16, 0, DONE),
        (TOP - 15, 14, 2, DONE),
        (TOP - 15, 2, 14, DONE),
        (TOP - 15, 1, 14, (14, 2, 0)),
        (TOP - 15, 0, 14, (14, 2, 0)),
        (TOP - 15, 16, 2, (9, 2, 0)),
        ((1 << 32) - 6, 0, 6, DONE),
        ((1 << 32) - 4, 0, 6, (14, 2, 0)),
        (FAR + 2, 0, 6, DONE),
    ];
    let case = |(address, offset, addend, answer): (u64, u64, i64, Answer)| {
        let list = [
            Relocation::new(0, RELAX, 0, 0),
            Relocation::new(0, NONE, u32::MAX, i64::MIN),
            Relocation::new(offset, ALIGN, 77, addend),
        ];
        let fit = at_64(address, &[0x13; 16], &[], &list);
        let name = format!("A {addend} at {address:x} + {offset}");
        Case::new(name, &fit, answer)
    };
    rows.map(case).into()
}

/// Which record is named: in the second of two RELA sections, and the last of
/// 32,768. Two RELA sections may have their bytes in common.
fn places() -> Vec<Case> {
    let code = words(&[0x13, 0x17, 0x13]);
    let symbols = [
        Symbol::absolute(PLACE),
        Symbol::new(0, 1, 4),
        Symbol::new(0, 4, 8),
    ];
    let first = [
        Relocation::new(0, PCREL_LO12_I, 2, 0),
        Relocation::new(4, PCREL_HI20, 1, 0),
        Relocation::new(8, PCREL_LO12_I, 2, 0),
    ];
    let mut fit = at_64(PLACE, &code, &symbols, &first);
    fit.sections.push(Section::loaded(1, &code));
    let second = [Relocation::new(0, PCREL_LO12_I, 3, 0)];
    fit.sections.push(Section::relocations(4, 2, &second));
    fit.placements.push((4, PLACE + 16));
    let mut cases = vec![Case::new("no pair in the second", &fit, (12, 3, 0))];

    let with = |last: Relocation| {
        let mut list = vec![Relocation::new(0, NONE, 0, 0); 16_383];
        list.push(last);
        let mut fit = at_64(PLACE, &[0; 8], &[], &list);
        fit.sections.push(Section::loaded(1, &[0; 9]));
        fit.sections.push(Section::relocations(4, 2, &[]));
        // Behind the header, section 1 and one symbol.
        fit.sections[5].offset = Some(64 + 8 + 24);
        fit.sections[5].size = Some(24 * 16_384);
        fit.placements.push((4, PLACE + 8));
        fit
    };
    let kept = with(Relocation::new(8, NONE, 0, 0));
    cases.push(Case::new("32,768 in common", &kept, DONE));
    // 8 is the size of the first, and inside the second.
    let beside = with(Relocation::new(8, ALIGN, 0, 0));
    cases.push(Case::new("ALIGN at the last", &beside, DONE));
    let first = with(Relocation::new(9, NONE, 0, 0));
    cases.push(Case::new("past the first", &first, (9, 16_383, 0)));
    let mut second = kept;
    second.sections[4].bytes.truncate(7);
    cases.push(Case::new("past the second", &second, (9, 32_767, 0)));
    cases
}

/// The longest section that an object of 65,536 bytes has room for, at the end
/// of the address space, with a relocation at each end.
fn long() -> Case {
    const SIZE: usize = 65_536 - 64 - 4 * 64 - 2 * 24 - 2 * 24;
    let last = SIZE as u64 - 8;
    let list = [
        Relocation::new(0, WORD_64, 1, 1),
        Relocation::new(last, WORD_64, 1, -1),
    ];
    let mut fit = at_64(
        0_u64.wrapping_sub(SIZE as u64),
        &[0; SIZE],
        &[Symbol::absolute(S)],
        &list,
    );
    fit.base = 0_u64.wrapping_sub(65_536);
    fit.image = vec![0; 65_536];
    let mut after = vec![0; SIZE];
    after[..8].copy_from_slice(&(S + 1).to_le_bytes());
    after[last as usize..].copy_from_slice(&(S - 1).to_le_bytes());
    Case::done("a long section", &fit, &after)
}

pub fn cases() -> Vec<Case> {
    let mut cases = high_halves();
    cases.extend(calls());
    cases.extend(jumps());
    cases.extend(data());
    cases.extend(words_of_64());
    cases.extend(forms());
    cases.extend(types());
    cases.extend(whole_numbers());
    cases.extend(pairs());
    cases.extend(padding());
    cases.extend(places());
    cases.push(long());
    let class_2 = |case: Case| Case {
        name: format!("class 2: {}", case.name),
        ..case
    };
    cases.into_iter().map(class_2).collect()
}

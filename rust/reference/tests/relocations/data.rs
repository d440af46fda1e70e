//! Words, and ADD, SUB and SET at the ends of their widths, with the bytes.

use crate::fits::*;
use crate::Case;
use testing::build::*;

const ONES: u64 = u64::MAX;
/// The largest S of class 1.
const TOP: u64 = 0xFFFF_FFFF;
/// The ends of A in class 1.
const LOWEST: i64 = i32::MIN as i64;
const HIGHEST: i64 = i32::MAX as i64;

/// Type, eight bytes from V on, S, A, and the eight bytes after it.
type Row = (u32, u64, u64, i64, u64);

/// "V + S + A [...] wraps at the width of the field, S + A not reduced first"
const ADDS: [Row; 24] = [
    (ADD8, ONES, 2, 0, 0xFFFF_FFFF_FFFF_FF01),
    (ADD8, 0xF0, 0x20, 0, 0x10),
    (ADD8, 0, 0xFF, 0, 0xFF),
    (ADD8, 0, 0x100, 0, 0),
    (ADD8, 1, 0, -2, 0xFF),
    (ADD8, 0x7F, 1, 0, 0x80),
    (ADD16, ONES, 2, 0, 0xFFFF_FFFF_FFFF_0001),
    (ADD16, 0xFFFF, 1, 0, 0),
    (ADD16, 0x00FF, 1, 0, 0x100),
    (ADD16, 0, 0, -1, 0xFFFF),
    (ADD16, 0, 0x1_0000, 0, 0),
    (ADD32, ONES, 2, 0, 0xFFFF_FFFF_0000_0001),
    (ADD32, 0xFFFF_FFFF, 1, 0, 0),
    (ADD32, 0, TOP, 1, 0),
    (ADD32, 0, 0, -1, 0xFFFF_FFFF),
    (ADD32, 0x8000_0000, 0x8000_0000, 0, 0),
    (ADD64, ONES, 2, 0, 1),
    (ADD64, 0, TOP, 1, 1 << 32),
    (ADD64, 0, 0, -1, ONES),
    (ADD64, 5, 2, -3, 4),
    (ADD64, 0xFFFF_FFFF, 1, 0, 1 << 32),
    (ADD64, 1 << 63, 0x8000_0000, 0, 0x8000_0000_8000_0000),
    (ADD64, 0, TOP, HIGHEST, 0x1_7FFF_FFFE),
    (ADD64, 0, 0, LOWEST, 0xFFFF_FFFF_8000_0000),
];

/// "V - S - A"
const SUBS: [Row; 17] = [
    (SUB8, 0x100, 2, 0, 0x1FE),
    (SUB8, 0, 1, 0, 0xFF),
    (SUB8, 5, 2, 3, 0),
    (SUB8, 0, 0, -1, 1),
    (SUB16, 0x1_0000, 2, 0, 0x1_FFFE),
    (SUB16, 0, 1, 0, 0xFFFF),
    (SUB16, 0x100, 1, 0, 0xFF),
    (SUB32, 1 << 32, 2, 0, 0x1_FFFF_FFFE),
    (SUB32, 0, TOP, 1, 0),
    (SUB32, 0, 0x8000_0000, 0, 0x8000_0000),
    (SUB32, 0x1_0000, 1, 0, 0xFFFF),
    (SUB64, 0, 2, 0, 0xFFFF_FFFF_FFFF_FFFE),
    (SUB64, 0, 0, -1, 1),
    (SUB64, 0, TOP, HIGHEST, 0xFFFF_FFFE_8000_0002),
    (SUB64, ONES, TOP, 1, 0xFFFF_FFFE_FFFF_FFFF),
    (SUB64, 1 << 32, 1, 0, 0xFFFF_FFFF),
    (SUB64, 0, TOP, 1, 0xFFFF_FFFF_0000_0000),
];

/// "S + A cut to the width"
const SETS: [Row; 12] = [
    (SET8, ONES, 0x1_2345, 0, 0xFFFF_FFFF_FFFF_FF45),
    (SET8, ONES, 0x100, 0, 0xFFFF_FFFF_FFFF_FF00),
    (SET8, 0, 0, -1, 0xFF),
    (SET8, 0x77, 0x77, 1, 0x78),
    (SET16, ONES, 0x12_3456, 0, 0xFFFF_FFFF_FFFF_3456),
    (SET16, ONES, 0x1_0000, 0, 0xFFFF_FFFF_FFFF_0000),
    (SET16, 0, 0, -2, 0xFFFE),
    (SET32, ONES, 0x1234_5678, 0, 0xFFFF_FFFF_1234_5678),
    (SET32, ONES, TOP, 1, 0xFFFF_FFFF_0000_0000),
    (SET32, 0, 0, -2, 0xFFFF_FFFE),
    (SET32, 0, 0x8000_0000, LOWEST, 0),
    (SET32, 0, 0x7FFF_FFFF, HIGHEST, 0xFFFF_FFFE),
];

/// "low six bits, top two kept"
const SIXES: [Row; 14] = [
    (SET6, ONES, 0, 0, 0xFFFF_FFFF_FFFF_FFC0),
    (SET6, 0x80, 0x7F, 0, 0xBF),
    (SET6, 0x40, 0x40, 0, 0x40),
    (SET6, 0x15, 0x2A, 0, 0x2A),
    (SET6, 0xC0, 0, -1, 0xFF),
    (SET6, 0, 0xC0, 0, 0),
    (SUB6, 0xC1, 2, 0, 0xFF),
    (SUB6, 0x80, 0, -1, 0x81),
    (SUB6, 0xBF, 0, -1, 0x80),
    (SUB6, 0x40, 1, 0, 0x7F),
    (SUB6, 0x40, 0x41, 0, 0x7F),
    (SUB6, 0x6A, 0x40, 0, 0x6A),
    (SUB6, 0x100, 1, 0, 0x13F),
    (SUB6, ONES, 63, 0, 0xFFFF_FFFF_FFFF_FFC0),
];

/// "T; T - P modulo 2^32": type, P, S, A and the word.
const WORDS: [(u32, u64, u64, i64, u32); 17] = [
    (WORD, PLACE, 5, 6, 0xB),
    (WORD, PLACE, 5, -6, 0xFFFF_FFFF),
    (WORD, PLACE, TOP, 1, 0),
    (WORD, PLACE, 0x8000_0000, LOWEST, 0),
    (WORD, PLACE, 0x7FFF_FFFF, HIGHEST, 0xFFFF_FFFE),
    (WORD, 0x1001, 0x1234_5678, 0, 0x1234_5678),
    (WORD, 0xFFFF_FFF8, 0, 0, 0),
    (WORD_PCREL, PLACE, 0x1004, 0, 4),
    (WORD_PCREL, PLACE, 0x1000, 0, 0),
    (WORD_PCREL, PLACE, 0x0FFF, 0, 0xFFFF_FFFF),
    (WORD_PCREL, PLACE, TOP, 1, 0xFFFF_F000),
    (WORD_PCREL, 0xFFFF_FFF0, 0, 0, 0x10),
    (WORD_PCREL, 0, TOP, 0, 0xFFFF_FFFF),
    (WORD_PCREL, 0x8000_0000, 0, 0, 0x8000_0000),
    (WORD_PCREL, 0x8000_0000, 0x7FFF_FFFF, 0, 0xFFFF_FFFF),
    (WORD_PCREL, 0x1001, 0x1004, 0, 3),
    (WORD_PCREL, 0xFFFF_FFF8, 0xFFFF_FFF0, -8, 0xFFFF_FFF0),
];

fn data((kind, before, s, addend, after): Row) -> Case {
    let list = [Relocation::new(0, kind, 1, addend)];
    let symbols = [Symbol::absolute(s)];
    let fit = at(PLACE, &before.to_le_bytes(), &symbols, &list);
    let name = format!("type {kind} on {before:x}, {s:x} + {addend}");
    Case::done(name, &fit, &after.to_le_bytes())
}

/// The bytes behind the word stay.
fn word((kind, p, s, addend, after): (u32, u64, u64, i64, u32)) -> Case {
    let list = [Relocation::new(0, kind, 1, addend)];
    let fit = at(p, &[0xA5; 8], &[Symbol::absolute(s)], &list);
    let name = format!("type {kind} from {p:x}, {s:x} + {addend}");
    Case::done(name, &fit, &[words(&[after]), vec![0xA5; 4]].concat())
}

pub fn cases() -> Vec<Case> {
    let rows = ADDS.into_iter().chain(SUBS).chain(SETS).chain(SIXES);
    rows.map(data).chain(WORDS.map(word)).collect()
}

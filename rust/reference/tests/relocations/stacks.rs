//! ADD, SUB and SET of one width at one place, in every order, with the bytes.

use crate::fits::*;
use crate::{Answer, Case, DONE};
use testing::build::*;

/// S of the symbols from 1 on.
const VALUES: [u64; 4] = [0x10, 0x0102_0385, 0xFFFF_FFF7, 0x7FFF_F0C1];
const ADDENDS: [i64; 5] = [0, -3, 0x0123_4567, i32::MIN as i64, 77];

/// How many bytes from one place to the next.
const STEP: usize = 8;

/// The types of one width.
struct Width {
    bits: u32,
    kinds: &'static [u32],
}

const WIDTHS: [Width; 5] = [
    Width {
        bits: 6,
        kinds: &[SUB6, SET6],
    },
    Width {
        bits: 8,
        kinds: &[ADD8, SUB8, SET8],
    },
    Width {
        bits: 16,
        kinds: &[ADD16, SUB16, SET16],
    },
    Width {
        bits: 32,
        kinds: &[ADD32, SUB32, SET32],
    },
    Width {
        bits: 64,
        kinds: &[ADD64, SUB64],
    },
];

/// Every sequence of so many of these types.
fn sequences(kinds: &[u32], count: usize) -> Vec<Vec<u32>> {
    let mut all = vec![Vec::new()];
    for _ in 0..count {
        let longer = |sequence: &Vec<u32>| {
            let one = |kind: &u32| [&sequence[..], &[*kind]].concat();
            kinds.iter().map(one).collect::<Vec<_>>()
        };
        all = all.iter().flat_map(longer).collect();
    }
    all
}

/// Symbol and addend of the relocation with this number.
fn sum_of(number: usize) -> (u32, i64) {
    let symbol = number % VALUES.len();
    (symbol as u32 + 1, ADDENDS[number % ADDENDS.len()])
}

/// What a type leaves of V, in 64 bits.
fn left(kind: u32, bits: u32, v: u64, number: usize) -> u64 {
    let (symbol, addend) = sum_of(number);
    let s = VALUES[symbol as usize - 1];
    let x = s.wrapping_add_signed(addend);
    let whole = match kind {
        ADD8..=ADD64 => v.wrapping_add(x),
        SUB8..=SUB64 | SUB6 => v.wrapping_sub(x),
        _ => x,
    };
    let mask = u64::MAX >> (64 - bits);
    v & !mask | whole & mask
}

/// All sequences of one width and length in one section, a place for each. A
/// marker stands before every second relocation if `marked`.
fn all_orders(width: &Width, count: usize, marked: bool) -> Case {
    let mut before = Vec::new();
    let mut after = Vec::new();
    let mut list = Vec::new();
    for (at, kinds) in sequences(width.kinds, count).into_iter().enumerate() {
        let offset = (STEP * at) as u64;
        let start = 0x8142_C3A5_F00F_9663_u64.rotate_left(at as u32);
        let mut v = start;
        for kind in kinds {
            let number = list.len();
            let (symbol, addend) = sum_of(number);
            if marked && number % 2 == 1 {
                list.push(Relocation::new(offset, RELAX, 999, 1));
            }
            list.push(Relocation::new(offset, kind, symbol, addend));
            v = left(kind, width.bits, v, number);
        }
        before.extend(start.to_le_bytes());
        after.extend(v.to_le_bytes());
    }
    let symbols = VALUES.map(Symbol::absolute);
    let fit = at(PLACE, &before, &symbols, &list);
    let name = format!("{count} of {} bits, marked {marked}", width.bits);
    Case::done(name, &fit, &after)
}

/// A type with its symbol, and a type with its offset.
type Stacked = (u32, u32);
type Placed = (u64, u32);

/// A byte, types with symbols at its place, and the byte after them.
fn bytes() -> Vec<Case> {
    let rows: [(&[Stacked], u8, u8); 12] = [
        (&[(ADD8, 1), (SUB8, 2)], 0x80, 0x6F),
        (&[(SUB8, 2), (ADD8, 1)], 0x80, 0x6F),
        (&[(SET8, 1), (SUB8, 2)], 0x80, 0xEF),
        (&[(SUB8, 2), (SET8, 1)], 0x80, 0x10),
        (&[(SET8, 2), (SET8, 1)], 0x80, 0x10),
        (&[(ADD8, 2), (ADD8, 2), (ADD8, 2)], 0xF0, 0x53),
        (&[(SET8, 1), (ADD8, 2), (SUB8, 1), (ADD8, 2)], 0xFF, 0x42),
        (&[(SET6, 1), (SUB6, 2)], 0x80, 0xAF),
        (&[(SUB6, 2), (SET6, 1)], 0x80, 0x90),
        (&[(SUB6, 1), (SUB6, 2)], 0x7F, 0x4E),
        (&[(SET6, 2), (NONE, 999), (SUB6, 1)], 0xC0, 0xD1),
        (
            &[(ADD8, 1), (RELAX, 999), (ALIGN, 0), (SUB8, 2)],
            0x80,
            0x6F,
        ),
    ];
    let symbols = [Symbol::absolute(0x10), Symbol::absolute(0x21)];
    let case = |(kinds, before, after): (&[Stacked], u8, u8)| {
        let relocation = |(kind, symbol): &Stacked| Relocation::new(0, *kind, *symbol, 0);
        let list: Vec<Relocation> = kinds.iter().map(relocation).collect();
        let fit = at(PLACE, &[before], &symbols, &list);
        Case::done(format!("{kinds:?} on {before:x}"), &fit, &[after])
    };
    rows.map(case).into_iter().collect()
}

/// The difference of two labels, as assemblers write it.
fn differences() -> Vec<Case> {
    let rows: [(u32, u32, u64, usize); 4] = [
        (ADD8, SUB8, 0x24, 1),
        (ADD16, SUB16, 0x0224, 2),
        (ADD32, SUB32, 0x0224, 4),
        (ADD64, SUB64, 0x0224, 8),
    ];
    let symbols = [Symbol::new(0, 1, 0x230), Symbol::new(0, 1, 0xC)];
    let case = |(add, sub, after, width): (u32, u32, u64, usize)| {
        let list = [Relocation::new(0, add, 1, 0), Relocation::new(0, sub, 2, 0)];
        let fit = at(PLACE, &low_bytes(0, width), &symbols, &list);
        Case::done(format!("{add} and {sub}"), &fit, &low_bytes(after, width))
    };
    rows.map(case).into_iter().collect()
}

/// More than two at one place, of which one has another width or does not
/// stack.
fn refused() -> Vec<Case> {
    let rows: [(&[Placed], Answer); 10] = [
        (&[(0, SET6), (0, ADD8)], (9, 1, 0)),
        (&[(0, SET6), (0, SUB6), (0, ADD8)], (9, 2, 0)),
        (&[(0, ADD8), (0, SUB8), (0, SET6)], (9, 2, 0)),
        (&[(0, ADD32), (0, SUB32), (0, WORD)], (9, 2, 0)),
        (&[(0, ADD32), (0, RELAX), (0, SUB16)], (9, 2, 0)),
        (&[(0, ADD32), (0, SUB32), (1, SET32)], (9, 2, 0)),
        (&[(0, ADD32), (0, SUB32), (3, SET8)], (9, 2, 0)),
        (&[(0, ADD32), (0, SUB32), (4, SET8), (4, SUB8)], DONE),
        (&[(0, ADD64), (0, SUB64), (4, ADD32)], (9, 2, 0)),
        (&[(0, SUB6), (0, SET6), (1, SET6), (1, SUB6)], DONE),
    ];
    let case = |(kinds, answer): (&[Placed], Answer)| {
        let relocation = |(offset, kind): &Placed| Relocation::new(*offset, *kind, 1, 0);
        let list: Vec<Relocation> = kinds.iter().map(relocation).collect();
        let fit = at(PLACE, &[0x5C; 9], &[Symbol::absolute(0x0101_0101)], &list);
        Case::new(format!("{kinds:?}"), &fit, answer)
    };
    rows.map(case).into_iter().collect()
}

pub fn cases() -> Vec<Case> {
    let mut cases = bytes();
    cases.extend(differences());
    cases.extend(refused());
    for width in &WIDTHS {
        cases.extend((1..=3).map(|count| all_orders(width, count, false)));
        cases.push(all_orders(width, 3, true));
        cases.push(all_orders(width, 4, false));
    }
    cases
}

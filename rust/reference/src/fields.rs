//! The high and the low half, the fields that they go into, and reading a field
//! back by the unprivileged manual.

use std::ops::RangeInclusive;

use crate::class::Class;
use crate::numbers::{number_from, write_number, Whole};

/// "High half of x: (x + 2,048) / 4,096 rounded down, modulo 2^20."
pub fn high_half(x: Whole) -> Whole {
    (x + 2_048).div_euclid(4_096).rem_euclid(1 << 20)
}

/// "Low half: x minus 4,096 times that, as a number from -2,048 to 2,047
/// modulo 2^32." It is the same for x modulo 2^64.
pub fn low_half(x: Whole) -> Whole {
    Class::Elf32.signed(x - 4_096 * high_half(x))
}

/// Bits `high` to `low` of a field's number stand in the word from bit `at` on.
#[derive(Clone, Copy, Debug)]
pub struct Run {
    high: u32,
    low: u32,
    at: u32,
}

const fn run(high: u32, low: u32, at: u32) -> Run {
    Run { high, low, at }
}

/// "Field bit orders U, I, S, B, J, CB, CJ are the manual's."
pub type Layout = &'static [Run];

pub const U: Layout = &[run(31, 12, 12)];
pub const I: Layout = &[run(11, 0, 20)];
pub const S: Layout = &[run(11, 5, 25), run(4, 0, 7)];
pub const B: Layout = &[
    run(12, 12, 31),
    run(10, 5, 25),
    run(4, 1, 8),
    run(11, 11, 7),
];
pub const J: Layout = &[
    run(20, 20, 31),
    run(10, 1, 21),
    run(11, 11, 20),
    run(19, 12, 12),
];
pub const CB: Layout = &[
    run(8, 8, 12),
    run(4, 3, 10),
    run(7, 6, 5),
    run(2, 1, 3),
    run(5, 5, 2),
];
pub const CJ: Layout = &[
    run(11, 11, 12),
    run(4, 4, 11),
    run(9, 8, 9),
    run(10, 10, 8),
    run(6, 6, 7),
    run(7, 7, 6),
    run(3, 1, 3),
    run(5, 5, 2),
];

/// Bits `high` to `low` of a number.
pub fn bits(number: Whole, high: u32, low: u32) -> Whole {
    number
        .div_euclid(1 << low)
        .rem_euclid(1 << (high - low + 1))
}

/// The word with the field's number put in. "Bits outside the field stay."
pub fn insert(layout: Layout, word: u64, number: Whole) -> u64 {
    let put = |word: Whole, run: &Run| {
        let old = bits(word, run.at + run.high - run.low, run.at);
        word + (bits(number, run.high, run.low) - old) * (1 << run.at)
    };
    layout.iter().fold(Whole::from(word), put) as u64
}

/// The number that the manual reads in a word's field; its top bit is the sign.
pub fn extract(layout: Layout, word: u64) -> Whole {
    let part = |run: &Run| {
        let found = bits(Whole::from(word), run.at + run.high - run.low, run.at);
        found * (1 << run.low)
    };
    let number: Whole = layout.iter().map(part).sum();
    let sign = layout.iter().map(|run| run.high).max().unwrap_or(0);
    number - 2 * (1 << sign) * bits(number, sign, sign)
}

/// The field that a relocation type writes.
#[derive(Clone, Copy, PartialEq, Eq, Debug)]
pub enum Field {
    /// The low bits of a number; 6 for SUB6 and SET6, "top two kept".
    Data {
        bits: u32,
    },
    U,
    I,
    S,
    B,
    J,
    CB,
    CJ,
    /// The two instructions of CALL and CALL_PLT.
    UThenI,
}

impl Field {
    /// How many bytes the field's word has.
    pub fn bytes(self) -> u32 {
        match self {
            Field::Data { bits } => bits.div_ceil(8),
            Field::CB | Field::CJ => 2,
            Field::U | Field::I | Field::S | Field::B | Field::J => 4,
            Field::UThenI => 8,
        }
    }

    /// The distances that fit into a jump's or branch's field.
    pub fn reach(self) -> Option<RangeInclusive<Whole>> {
        match self {
            Field::B => Some(-4_096..=4_094),
            Field::J => Some(-1_048_576..=1_048_574),
            Field::CB => Some(-256..=254),
            Field::CJ => Some(-2_048..=2_046),
            _ => None,
        }
    }

    /// V, "the field's present value", of a data field.
    pub fn present(self, word: u64) -> Whole {
        match self {
            Field::Data { bits } => Whole::from(word).rem_euclid(1 << bits),
            _ => 0,
        }
    }

    /// The word with what this field takes of x: all, a half, or both halves.
    pub fn put(self, word: u64, x: Whole) -> u64 {
        let high = 4_096 * high_half(x);
        match self {
            Field::Data { bits } => put_low_bits(bits, word, x),
            Field::U => insert(U, word, high),
            Field::I => insert(I, word, low_half(x)),
            Field::S => insert(S, word, low_half(x)),
            Field::B => insert(B, word, x),
            Field::J => insert(J, word, x),
            Field::CB => insert(CB, word, x),
            Field::CJ => insert(CJ, word, x),
            Field::UThenI => {
                let (first, second) = (word % (1 << 32), word / (1 << 32));
                insert(U, first, high) + insert(I, second, low_half(x)) * (1 << 32)
            }
        }
    }

    /// `put` on the field's bytes.
    pub fn write(self, bytes: &mut [u8], x: Whole) {
        write_number(bytes, self.put(number_from(bytes), x));
    }
}

/// "wraps at the width of the field", "cut to the width"
fn put_low_bits(bits: u32, word: u64, x: Whole) -> u64 {
    let modulus: Whole = 1 << bits;
    let word = Whole::from(word);
    (word - word.rem_euclid(modulus) + x.rem_euclid(modulus)) as u64
}

//! Without PCREL_LO12: calls, jumps, branches, absolute halves, data words, and
//! differences of two labels.

use testing::build::{Class, Symbol, GLOBAL};
use testing::damage::Input;
use testing::random::Random;

use super::code::*;

/// In which order the types come.
#[derive(Clone, Copy, PartialEq, Eq, Debug)]
pub enum Arrangement {
    /// All of one type, then all of the next.
    InRuns,
    /// In no order that a processor could guess.
    Shuffled,
}

/// Of each kind of symbol: labels in the code, and externals with a value in
/// the order.
const EACH: u32 = 32;
/// How many relocations a turn of all items has.
const TURN: usize = 11;

/// What stands at one place: one relocation, or two at a difference.
#[derive(Clone, Copy, PartialEq, Eq, PartialOrd, Ord)]
enum Kind {
    Call,
    Jump,
    Branch,
    High,
    LowLoad,
    LowStore,
    Word,
    Difference,
}

const ITEMS: [Kind; 9] = [
    Kind::Call,
    Kind::Jump,
    Kind::Branch,
    Kind::High,
    Kind::LowLoad,
    Kind::LowStore,
    Kind::Word,
    Kind::Difference,
    Kind::Difference,
];

pub fn input(class: Class, count: usize, arrangement: Arrangement) -> Input {
    code(count, arrangement).input(class, &symbols(), &external_values())
}

/// The same, shuffled, in an image of this length.
pub fn input_in(image: usize, class: Class, count: usize) -> Input {
    let code = code(count, Arrangement::Shuffled);
    code.input_in(image, class, &symbols(), &external_values())
}

/// The same, but for a jump at the end that is one step too long.
pub fn too_far_at_last(class: Class, count: usize) -> Input {
    let mut code = code(count - 1, Arrangement::Shuffled);
    let too_far = 1_048_576 + code.end() as i64;
    code.word(JAL_RA, JAL, 1, too_far);
    code.input(class, &symbols(), &external_values())
}

fn label_at(index: u32) -> u64 {
    128 * u64::from(index)
}

fn symbols() -> Vec<Symbol> {
    let mut symbols = vec![Symbol::default()];
    symbols.extend((0..EACH).map(|index| Symbol::new(0, 1, label_at(index))));
    symbols.extend((0..EACH).map(|_| Symbol::new(GLOBAL, 0, 0)));
    symbols
}

fn external_values() -> Vec<(u32, u64)> {
    (0..EACH)
        .map(|index| (1 + EACH + index, 0x4000_0000 + 0x1234 * u64::from(index)))
        .collect()
}

fn code(count: usize, arrangement: Arrangement) -> Code {
    let turns = 0..(count / TURN) as u32;
    let mut items: Vec<(Kind, u32)> = turns
        .flat_map(|turn| ITEMS.map(|kind| (kind, turn)))
        .collect();
    match arrangement {
        Arrangement::InRuns => items.sort(),
        Arrangement::Shuffled => shuffle(&mut items),
    }
    let mut code = Code::default();
    for (kind, turn) in items {
        add(&mut code, kind, turn);
    }
    while code.relocations.len() < count {
        code.word(0, ABSOLUTE_32, 1, 0);
    }
    code
}

fn shuffle<T>(items: &mut [T]) {
    let random = &mut Random::new(1);
    for last in (1..items.len()).rev() {
        items.swap(last, random.below(last + 1));
    }
}

fn add(code: &mut Code, kind: Kind, turn: u32) {
    let (label, other) = (1 + turn % EACH, 1 + (turn + 5) % EACH);
    let external = 1 + EACH + turn % EACH;
    match kind {
        Kind::Call => {
            code.word(AUIPC_RA, CALL, external, 0);
            code.plain(JALR_RA);
        }
        Kind::Jump => code.word(JAL_RA, JAL, label, 0),
        Kind::Branch => {
            let ahead = code.end() as i64 + 64 - label_at(turn % EACH) as i64;
            code.word(BEQ, BRANCH, label, ahead);
        }
        Kind::High => code.word(LUI_A0, HI20, external, 4),
        Kind::LowLoad => code.word(ADDI_A0, LO12_I, external, 4),
        Kind::LowStore => code.word(SW_A0, LO12_S, external, 4),
        Kind::Word => code.word(0, ABSOLUTE_32, label, 8),
        Kind::Difference => {
            code.word(0, ADD32, other, 0);
            code.again(SUB32, label, 0);
        }
    }
}

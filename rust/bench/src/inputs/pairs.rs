//! Half PCREL_LO12 and half PCREL_HI20, and what makes the search for pairs
//! hard. Where no room is left for another pair, RELAX fills up.

use testing::build::{Class, Relocation, Symbol};
use testing::damage::Input;

use super::code::*;
use super::IMAGE;

/// As many pairs as there is room for beside 4,096 relocations and few labels.
const MOST_PAIRS: usize = 1_984;
/// What all high halves are about.
const TARGET: u64 = 0x4000_1234;
/// The symbol of the target, and the first label after it.
const TARGET_SYMBOL: u32 = 1;
const FIRST_LABEL: u32 = 2;

/// Symbol 0, the target, and labels at these offsets in the code.
fn symbols(labels: impl Iterator<Item = u64>) -> Vec<Symbol> {
    let mut symbols = vec![Symbol::default(), Symbol::absolute(TARGET)];
    symbols.extend(labels.map(|offset| Symbol::new(0, 1, offset)));
    symbols
}

fn high(code: &mut Code, addend: usize) {
    code.word(AUIPC_A0, PCREL_HI20, TARGET_SYMBOL, addend as i64);
}

/// A low half, now of a load and now of a store.
fn low(code: &mut Code, turn: usize, label: usize) {
    let label = FIRST_LABEL + label as u32;
    match turn % 2 {
        0 => code.word(ADDI_A0, PCREL_LO12_I, label, 0),
        _ => code.word(SW_A0, PCREL_LO12_S, label, 0),
    }
}

/// A PCREL_LO12 names one of twelve labels, which lie apart in the code.
fn far_code(count: usize, pairs: usize) -> (Code, Vec<Symbol>) {
    const LABELS: usize = 12;
    let mut code = Code::default();
    for pair in 0..pairs {
        high(&mut code, pair);
        low(&mut code, pair, pair % LABELS);
    }
    code.fill_up(count);
    let apart = 8 * (pairs / LABELS) as u64;
    let labels = (0..LABELS as u64).map(|label| apart * label);
    (code, symbols(labels))
}

pub fn far(class: Class, count: usize) -> Input {
    let (code, symbols) = far_code(count, (count / 2).min(MOST_PAIRS));
    code.input(class, &symbols, &[])
}

/// The same with nothing but pairs, in an image of this length.
pub fn far_in(image: usize, class: Class, count: usize) -> Input {
    let (code, symbols) = far_code(count, count / 2);
    code.input_in(image, class, &symbols, &[])
}

/// Every relocation keeps its rules but the last, whose offset falls.
pub fn falling(class: Class, count: usize) -> Input {
    let (mut code, symbols) = far_code(count - 1, ((count - 1) / 2).min(MOST_PAIRS));
    code.relocations.push(Relocation::new(0, RELAX, 0, 0));
    code.input(class, &symbols, &[])
}

/// One PCREL_LO12 names the only PCREL_HI20 at its label, and all others are
/// behind it, at offsets that fall: the list of high halves has to be sorted
/// from the other end. Refused at the third.
pub fn turned(image: usize, class: Class, count: usize) -> Input {
    let mut code = Code::default();
    high(&mut code, 0);
    low(&mut code, 0, 0);
    for _ in 2..count {
        code.plain(AUIPC_A0);
    }
    for place in (2..count as u64).rev() {
        let offset = 4 * place;
        code.relocations
            .push(Relocation::new(offset, PCREL_HI20, TARGET_SYMBOL, 0));
    }
    code.input_in(image, class, &symbols([0].into_iter()), &[])
}

/// A PCREL_LO12 names the label of the PCREL_HI20 before it. Every pair has a
/// label of its own, so that there is room for 1,000 pairs, or for 800 of class
/// 2.
pub fn near(class: Class, count: usize) -> Input {
    let pairs = count / 2;
    let mut code = Code::default();
    for pair in 0..pairs {
        high(&mut code, pair);
        low(&mut code, pair, pair);
    }
    let labels = (0..pairs).map(|pair| 8 * pair as u64);
    code.input(class, &symbols(labels), &[])
}

/// Half of all are RELAX at the offset of one PCREL_HI20, before it and behind
/// it, and all others name it, by many labels.
pub fn crowded(class: Class, count: usize) -> Input {
    crowded_in(IMAGE, class, count)
}

/// The same, in an image of this length.
pub fn crowded_in(image: usize, class: Class, count: usize) -> Input {
    const LABELS: usize = 64;
    let mut code = Code::default();
    code.plain(AUIPC_A0);
    code.fill_up(count / 4);
    code.again(PCREL_HI20, TARGET_SYMBOL, 0);
    code.fill_up(count / 2);
    for turn in 0..count - code.relocations.len() {
        low(&mut code, turn, turn % LABELS);
    }
    let symbols = symbols([0; LABELS].into_iter());
    code.input_in(image, class, &symbols, &[])
}

//! PCREL_LO12: its pair (check 12), its symbol (10) and its addend (9).

use testing::build::*;
use testing::DONE;

const PLACE: u64 = 0x1000;

/// auipc a0 at 0, addi a0, a0 at 4; symbol 1 is absolute, symbol 2 the label.
fn pair(label: Symbol, relocations: &[(u64, u32, u32, i64)]) -> Fit {
    let code = [0x517_u32, 0x50513, 0x517, 0x50513].map(u32::to_le_bytes);
    let list: Vec<Relocation> = relocations
        .iter()
        .map(|(offset, kind, symbol, addend)| Relocation::new(*offset, *kind, *symbol, *addend))
        .collect();
    let symbols = [Symbol::absolute(0x2345_6FFF), label];
    Fit::code(PLACE, &code.concat(), &symbols, &list)
}

const HIGH: (u64, u32, u32, i64) = (0, 23, 1, 0);
const LOW: (u64, u32, u32, i64) = (4, 24, 2, 0);

#[test]
fn exactly_one_pair() {
    let label = Symbol::new(0, 1, 0);
    assert_eq!(pair(label, &[HIGH, LOW]).answer_of_both(), DONE);
    assert_eq!(pair(label, &[LOW]).answer_of_both(), (12, 0, 0), "none");
    let other = (8, 23, 1, 0);
    assert_eq!(
        pair(label, &[LOW, other]).answer_of_both(),
        (12, 0, 0),
        "elsewhere"
    );
    let absolute_high = (0, 26, 1, 0);
    assert_eq!(
        pair(label, &[absolute_high, LOW]).answer_of_both(),
        (11, 0, 0),
        "HI20 is no pair, and auipc no lui"
    );
    // Two at one offset overlap, so that the second comes behind the low half.
    let at_8 = Symbol::new(0, 1, 8);
    let twice = [LOW, other, other];
    assert_eq!(pair(at_8, &twice).answer_of_both(), (12, 0, 0), "two");
    assert_eq!(
        pair(at_8, &[LOW, other]).answer_of_both(),
        DONE,
        "it may come later"
    );
}

#[test]
fn the_low_half_is_the_pairs() {
    let laid = pair(Symbol::new(0, 1, 0), &[HIGH, LOW]).laid_of_both();
    let distance = 0x2345_6FFF - PLACE;
    let high = u32::from_le_bytes([laid[0], laid[1], laid[2], laid[3]]) & 0xFFFF_F000;
    let low = u32::from_le_bytes([laid[4], laid[5], laid[6], laid[7]]) as i32 >> 20;
    assert_eq!(u64::from(high.wrapping_add(low as u32)), distance);
    let with_addend = (0, 23, 1, -0x7FF);
    let laid = pair(Symbol::new(0, 1, 0), &[with_addend, LOW]).laid_of_both();
    let low = u32::from_le_bytes([laid[4], laid[5], laid[6], laid[7]]) as i32 >> 20;
    assert_eq!(low, -2_048, "with the pair's addend");
}

#[test]
fn symbol_of_a_low_half() {
    let with = |label| pair(label, &[HIGH, LOW]).answer_of_both();
    assert_eq!(with(Symbol::absolute(0)), (10, 1, 7));
    assert_eq!(with(Symbol::new(0, 2, 0)), (10, 1, 2), "not allocated");
    assert_eq!(with(Symbol::new(WEAK, 0, 0)), (10, 1, 7), "weak, undefined");
    assert_eq!(with(Symbol::new(GLOBAL, 0, 0)), (10, 1, 5), "undefined");
    assert_eq!(with(Symbol::new(TLS, 1, 0)), (10, 1, 6), "TLS");
    assert_eq!(with(Symbol::new(IFUNC, 1, 0)), (10, 1, 6), "IFUNC");
    assert_eq!(
        with(Symbol::new(TLS, ABSOLUTE, 0)),
        (10, 1, 6),
        "6 before 7"
    );
    assert_eq!(with(Symbol::new(3, 1, 0)), DONE, "a section symbol");
    let symbol_0 = (4, 24, 0, 0);
    let mut fit = pair(Symbol::new(0, 1, 0), &[HIGH, symbol_0]);
    assert_eq!(fit.answer_of_both(), (10, 1, 7), "symbol 0");
    fit.sections[2].symbols_mut()[0].section = 1;
    assert_eq!(
        fit.answer_of_both(),
        (10, 1, 7),
        "symbol 0, whatever its entry holds"
    );
    let mut two_rows = pair(Symbol::new(0, 4, 0), &[HIGH, LOW]);
    two_rows.sections.push(Section::nobits(1, 8));
    two_rows.placements.push((4, 0x9000));
    assert_eq!(
        two_rows.answer_of_both(),
        (10, 1, 7),
        "another allocated row"
    );
}

#[test]
fn addend_of_a_low_half_is_0() {
    for addend in [1, -1, 4] {
        let low = (4, 24, 2, addend);
        assert_eq!(
            pair(Symbol::new(0, 1, 0), &[HIGH, low]).answer_of_both(),
            (9, 1, 0)
        );
    }
}

/// Addends that class 1 does not have.
#[test]
fn addend_of_a_low_half_in_class_2() {
    const ABOVE: i64 = 1 << 32;
    for addend in [ABOVE, ABOVE + 6, i64::MIN, i64::MAX - 1, -ABOVE] {
        let low = (4, 24, 2, addend);
        let fit = pair(Symbol::new(0, 1, 0), &[HIGH, low]);
        assert_eq!(fit.of(Class::Elf64).answer(), (9, 1, 0), "{addend:#x}");
    }
}

/// The pair is looked for in the same RELA row only.
#[test]
fn a_pair_in_another_row_is_none() {
    let mut fit = pair(Symbol::new(0, 1, 0), &[LOW]);
    let code = fit.sections[1].clone();
    fit.sections.push(code);
    let high = [Relocation::new(0, 23, 1, 0)];
    fit.sections.push(Section::relocations(4, 2, &high));
    fit.placements.push((4, PLACE + 16));
    assert_eq!(fit.answer_of_both(), (12, 0, 0));
}

#[test]
fn a_broken_pair_is_named_in_its_own_turn() {
    let label = Symbol::new(0, 1, 8);
    let unresolved = (8, 23, 99, 0);
    assert_eq!(pair(label, &[LOW, unresolved]).answer_of_both(), (10, 1, 1));
}

/// A label and an offset are compared with all their bits.
#[test]
fn pairs_in_class_2() {
    const ABOVE: u64 = 1 << 32;
    let with = |label, list: &[(u64, u32, u32, i64)]| {
        let fit = pair(Symbol::new(0, 1, label), list);
        fit.of(Class::Elf64).answer()
    };
    assert_eq!(with(0, &[HIGH, LOW]), DONE);
    assert_eq!(with(ABOVE, &[HIGH, LOW]), (12, 1, 0));
    let far = (ABOVE, 23, 1, 0);
    assert_eq!(with(0, &[LOW, far]), (12, 0, 0));
    assert_eq!(
        with(ABOVE, &[LOW, far]),
        (9, 1, 0),
        "a pair, but outside the row"
    );
    assert_eq!(with(ABOVE, &[LOW, far, far]), (12, 0, 0));
    let last = (u64::MAX, 23, 1, 0);
    assert_eq!(with(u64::MAX, &[LOW, last]), (9, 1, 0));
    assert_eq!(with(u64::MAX - 1, &[LOW, last]), (12, 0, 0));
    let no_high = (0, 23 + 256, 1, 0);
    assert_eq!(
        with(8, &[LOW, (8, 23 + 256, 1, 0)]),
        (12, 0, 0),
        "type 279 is no pair"
    );
    assert_eq!(with(0, &[no_high, LOW]), (9, 0, 0));
}

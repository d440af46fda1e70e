//! Check 12: PCREL_LO12 and its pair, with the bytes.

use crate::fits::*;
use crate::{Answer, Case, DONE};
use testing::build::*;

/// auipc, addi, auipc, sw, lui.
const CODE: [u32; 5] = [
    0x0000_0517,
    0x0005_0513,
    0x0000_0597,
    0x00A5_A023,
    0x0000_0637,
];
const TARGET: u64 = 0x2345_6FFF;

/// Offset, type, symbol and A.
type Entry = (u64, u32, u32, i64);

/// Symbol 1 is the target; 2 to 6 are labels at 0, 4, 8, 12 and 16; 7 is weak
/// and undefined.
fn code(list: &[Entry]) -> Fit {
    let mut symbols = vec![Symbol::absolute(TARGET)];
    symbols.extend([0, 4, 8, 12, 16].map(|offset| Symbol::new(0, 1, offset)));
    symbols.push(Symbol::new(WEAK, 0, 0));
    at(PLACE, &words(&CODE), &symbols, &relocations(list))
}

fn relocations(list: &[Entry]) -> Vec<Relocation> {
    let relocation =
        |(offset, kind, symbol, addend): &Entry| Relocation::new(*offset, *kind, *symbol, *addend);
    list.iter().map(relocation).collect()
}

const HIGH: Entry = (0, PCREL_HI20, 1, 0);
const LOW: Entry = (4, PCREL_LO12_I, 2, 0);
const NEXT_HIGH: Entry = (8, PCREL_HI20, 1, 0);
const STORE: Entry = (12, PCREL_LO12_S, 4, 0);
/// A low half before its pair.
const EARLY: Entry = (4, PCREL_LO12_I, 4, 0);

/// Words of the code that change, by their number.
type Change = (usize, u32);

const FIRST: Change = (0, 0x2345_6517);
const SECOND: Change = (2, 0x2345_6597);
/// addi and sw with the low half of the pair at 0 and of the one at 8.
const LOW_OF_FIRST: Change = (1, 0xFFF5_0513);
const STORE_OF_FIRST: Change = (3, 0xFEA5_AFA3);
const LOW_OF_SECOND: Change = (1, 0xFF75_0513);
const STORE_OF_SECOND: Change = (3, 0xFEA5_ABA3);

fn done(name: &str, list: &[Entry], changed: &[Change]) -> Case {
    let mut after = CODE;
    for (at, word) in changed {
        after[*at] = *word;
    }
    Case::done(name, &code(list), &words(&after))
}

fn one_pair() -> Vec<Case> {
    let both = [FIRST, LOW_OF_FIRST];
    let crossed = (12, PCREL_LO12_S, 2, 0);
    let four = [FIRST, LOW_OF_FIRST, SECOND, STORE_OF_SECOND];
    let shared = [FIRST, LOW_OF_FIRST, STORE_OF_FIRST];
    let all = [FIRST, LOW_OF_SECOND, SECOND, STORE_OF_FIRST];
    let marked = [
        (0, RELAX, 1, 0),
        HIGH,
        (0, NONE, 9, 0),
        (4, RELAX, 9, 0),
        LOW,
    ];
    vec![
        done("a pair", &[HIGH, LOW], &both),
        done("two pairs", &[HIGH, LOW, NEXT_HIGH, STORE], &four),
        done("two low halves of one", &[HIGH, LOW, crossed], &shared),
        done(
            "low half first",
            &[EARLY, NEXT_HIGH],
            &[LOW_OF_SECOND, SECOND],
        ),
        done("crossed", &[HIGH, EARLY, NEXT_HIGH, crossed], &all),
        done("markers at the pair", &marked, &both),
    ]
}

/// The pair's own symbol and addend.
fn pair_values() -> Vec<Case> {
    let high = |symbol, addend| [(0, PCREL_HI20, symbol, addend), LOW];
    let rounded = [(0, 0x2345_6517), (1, 0x8005_0513)];
    let one_less = [(0, 0x2345_5517), (1, 0x7FF5_0513)];
    let nothing = [(0, 0xFFFF_F517), (1, 0x0005_0513)];
    vec![
        done("the pair's addend", &high(1, -0x7FF), &rounded),
        done("one less", &high(1, -0x800), &one_less),
        done("a pair to nothing", &high(7, 0), &nothing),
    ]
}

fn refused(name: &str, list: &[Entry], answer: Answer) -> Case {
    Case::new(name, &code(list), answer)
}

fn no_pair() -> Vec<Case> {
    let off = (4, PCREL_LO12_I, 3, 0);
    let at_lui = [(4, PCREL_LO12_I, 6, 0), (16, HI20, 1, 0)];
    let crossed = (12, PCREL_LO12_S, 2, 0);
    vec![
        refused("none", &[LOW], (12, 0, 0)),
        refused("elsewhere", &[LOW, NEXT_HIGH], (12, 0, 0)),
        refused("one word off", &[HIGH, off], (12, 1, 0)),
        refused("its own pair", &[off], (12, 0, 0)),
        refused("a marker instead", &[(0, RELAX, 1, 0), LOW], (12, 1, 0)),
        refused("a word instead", &[(0, WORD, 1, 0), LOW], (12, 1, 0)),
        refused("ADD32 instead", &[(0, ADD32, 1, 0), LOW], (12, 1, 0)),
        refused("HI20 instead", &at_lui, (12, 0, 0)),
        refused("not for the second", &[HIGH, LOW, STORE], (12, 2, 0)),
        refused("for neither", &[EARLY, crossed], (12, 0, 0)),
    ]
}

fn two_at_one_offset() -> Vec<Case> {
    let other = (8, PCREL_HI20, 7, 4);
    let marker = (8, RELAX, 1, 0);
    let far = [LOW, NEXT_HIGH, HIGH, STORE, HIGH];
    let three = [EARLY, NEXT_HIGH, NEXT_HIGH, NEXT_HIGH];
    let marked = [EARLY, NEXT_HIGH, marker, NEXT_HIGH];
    let unused = [HIGH, LOW, NEXT_HIGH, NEXT_HIGH];
    vec![
        refused("two", &[EARLY, NEXT_HIGH, NEXT_HIGH], (12, 0, 0)),
        refused("two symbols", &[EARLY, NEXT_HIGH, other], (12, 0, 0)),
        refused("three", &three, (12, 0, 0)),
        refused("a marker between two", &marked, (12, 0, 0)),
        refused("the second far behind", &far, (12, 0, 0)),
        refused("two before", &[HIGH, HIGH, LOW], (9, 1, 0)),
        refused("two that no one asks for", &unused, (9, 3, 0)),
    ]
}

/// The pair counts by type and offset alone, and is named in its own turn.
fn broken_pairs() -> Vec<Case> {
    let at_lui = [(4, PCREL_LO12_I, 6, 0), (16, PCREL_HI20, 1, 0)];
    let overlap = [EARLY, (8, WORD, 1, 0), NEXT_HIGH];
    vec![
        refused("unresolved", &[EARLY, (8, PCREL_HI20, 99, 0)], (10, 1, 1)),
        refused("the pair falls", &[LOW, HIGH], (9, 1, 0)),
        refused("the pair's form", &at_lui, (11, 1, 0)),
        refused("the pair overlaps", &overlap, (9, 2, 0)),
    ]
}

/// "its value" is compared with offsets, not with addresses.
fn label_values() -> Vec<Case> {
    let rows: [(u64, u64, Answer); 14] = [
        (0, 0, DONE),
        (0, 1, (12, 1, 0)),
        (0, 2, (12, 1, 0)),
        (0, 0x100, (12, 1, 0)),
        (0, 0x1_0000, (12, 1, 0)),
        (0, PLACE, (12, 1, 0)),
        (0, u64::MAX, (12, 1, 0)),
        (0, 0_u64.wrapping_sub(PLACE), (12, 1, 0)),
        (8, 8, DONE),
        (8, 0, (12, 1, 0)),
        (16, 16, (11, 1, 0)),
        (17, 17, (9, 1, 0)),
        (20, 20, (9, 1, 0)),
        (u64::MAX, u64::MAX, (9, 1, 0)),
    ];
    let case = |(high, label, answer): (u64, u64, Answer)| {
        let symbols = [Symbol::absolute(TARGET), Symbol::new(0, 1, label)];
        let mut list = [(high, PCREL_HI20, 1, 0), (12, PCREL_LO12_S, 2, 0)];
        list.sort_unstable();
        let fit = at(PLACE, &words(&CODE), &symbols, &relocations(&list));
        Case::new(format!("label {label:x}, pair at {high}"), &fit, answer)
    };
    rows.map(case).into_iter().collect()
}

/// Two sections of the same code: section 1 with RELA section 3, and section 4
/// with RELA section 5. Symbol 8 is a label at 0 of section 4.
fn two(first: &[Entry], second: &[Entry]) -> Fit {
    let mut symbols = vec![Symbol::default(), Symbol::absolute(TARGET)];
    symbols.extend([0, 4, 8, 12, 16].map(|offset| Symbol::new(0, 1, offset)));
    symbols.extend([Symbol::new(WEAK, 0, 0), Symbol::new(0, 4, 0)]);
    let mut fit = code(first);
    fit.sections[2] = Section::symbols(&symbols);
    fit.sections.push(Section::loaded(1, &words(&CODE)));
    fit.sections
        .push(Section::relocations(4, 2, &relocations(second)));
    fit.placements.push((4, PLACE + 0x20));
    fit
}

/// "among the same RELA row's records"
fn other_sections() -> Vec<Case> {
    let low: Entry = (4, PCREL_LO12_I, 8, 0);
    let case = |name: &str, first: &[Entry], second: &[Entry], answer| {
        Case::new(name, &two(first, second), answer)
    };
    let mut each = case(
        "one each",
        &[HIGH, LOW],
        &[(0, PCREL_HI20, 1, 1), low],
        DONE,
    );
    let after = |high, low| words(&[high, low, CODE[2], CODE[3], CODE[4]]);
    each.bytes = vec![
        (1, after(0x2345_6517, 0xFFF5_0513)),
        (4, after(0x2345_6517, 0xFE05_0513)),
    ];
    vec![
        each,
        case("the pair in a later one", &[LOW], &[HIGH], (12, 0, 0)),
        case("the pair in an earlier one", &[HIGH], &[low], (12, 1, 0)),
        case("the other's label", &[HIGH, LOW], &[HIGH, LOW], (10, 3, 7)),
        case("the later one's label", &[HIGH, low], &[HIGH], (10, 1, 7)),
        case("none in the second", &[HIGH, LOW], &[low], (12, 2, 0)),
        case("one in each", &[HIGH, LOW], &[HIGH, low], DONE),
    ]
}

pub fn cases() -> Vec<Case> {
    let mut cases = one_pair();
    cases.extend(pair_values());
    cases.extend(no_pair());
    cases.extend(two_at_one_offset());
    cases.extend(broken_pairs());
    cases.extend(label_values());
    cases.extend(other_sections());
    cases
}

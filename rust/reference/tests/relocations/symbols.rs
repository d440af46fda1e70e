//! Check 10: symbols that resolve and symbols that do not, with the reason, for
//! words, for the two PCREL_LO12 and for every type.

use crate::fits::*;
use crate::types::of_type;
use crate::{Answer, Case, DONE};
use testing::build::*;

const NOBITS_AT: u64 = 0xFFFF_FFF0;

/// A word at 4 of section 1 against a symbol. Section 4 is NOBITS, section 5 is
/// not allocated, section 6 is loaded and empty, and section 7, the last, is NULL
/// with the flag of an allocated one.
fn word_of(symbols: &[Symbol], which: u32, addend: i64) -> Fit {
    let list = [Relocation::new(4, WORD, which, addend)];
    let mut fit = at(PLACE, &[0xEE; 8], symbols, &list);
    fit.sections.push(Section::nobits(4, 16));
    fit.sections.push(Section {
        flags: 0,
        ..Section::loaded(1, &[1; 4])
    });
    fit.sections.push(Section::loaded(1, &[]));
    fit.sections.push(Section {
        kind: NULL,
        ..Section::loaded(1, &[])
    });
    fit.placements.extend([(4, NOBITS_AT), (6, 0x77)]);
    fit
}

fn resolved() -> Vec<Case> {
    let rows: [(&str, Symbol, Option<u64>, u32); 15] = [
        ("its own section", Symbol::new(0, 1, 8), None, 0x1008),
        ("a section symbol", Symbol::new(3, 1, 0), None, 0x1000),
        (
            "far in a section",
            Symbol::new(0, 1, 1 << 31),
            None,
            0x8000_1000,
        ),
        (
            "around the end",
            Symbol::new(GLOBAL, 1, u64::MAX),
            None,
            0xFFF,
        ),
        (
            "a NOBITS section",
            Symbol::new(GLOBAL, 4, 4),
            None,
            0xFFFF_FFF4,
        ),
        ("NOBITS around", Symbol::new(GLOBAL, 4, 16), None, 0),
        ("an empty section", Symbol::new(WEAK, 6, 1), None, 0x78),
        ("an absolute symbol", Symbol::absolute(99), None, 99),
        ("a function", Symbol::new(GLOBAL + 2, 1, 2), None, 0x1002),
        ("strong with a value", Symbol::new(GLOBAL, 0, 5), Some(7), 7),
        ("local with a value", Symbol::new(0, 0, 5), Some(7), 7),
        ("weak with a value", Symbol::new(WEAK, 0, 5), Some(7), 7),
        ("weak with value 0", Symbol::new(WEAK, 0, 5), Some(0), 0),
        ("weak without a value", Symbol::new(WEAK, 0, 5), None, 0),
        ("a weak function", Symbol::new(WEAK + 2, 0, 5), None, 0),
    ];
    let case = |(name, symbol, value, s): (&str, Symbol, Option<u64>, u32)| {
        let mut fit = word_of(&[symbol], 1, 0x10);
        fit.external_values = value.map(|value| (1, value)).into_iter().collect();
        let after = [vec![0xEE; 4], words(&[s.wrapping_add(0x10)])].concat();
        Case::done(name, &fit, &after)
    };
    rows.map(case).into_iter().collect()
}

/// Sections of [`word_of`] in which no symbol resolves, and the reason.
const OTHERS: [(u16, u32); 15] = [
    (2, 2),
    (3, 2),
    (5, 2),
    (7, 2),
    (8, 2),
    (127, 2),
    (128, 2),
    (0x101, 2),
    (0xFEFF, 2),
    (0xFF00, 4),
    (0xFFF0, 4),
    (COMMON, 3),
    (0xFFF3, 4),
    (0xFFFE, 4),
    (0xFFFF, 4),
];

/// "the first that applies, in this order"
fn unresolved() -> Vec<Case> {
    let mut cases = Vec::new();
    let mut add = |name: String, symbol: Symbol, value: Option<u64>, reason| {
        let mut fit = word_of(&[symbol], 1, 0);
        fit.external_values = value.map(|value| (1, value)).into_iter().collect();
        cases.push(Case::new(name, &fit, (10, 0, reason)));
    };
    for info in [0, GLOBAL, 0x30, 0xA0, 2] {
        let name = format!("undefined, info {info:#x}");
        add(name, Symbol::new(info, 0, 5), None, 5);
    }
    for kind in [0, TLS, IFUNC] {
        for (section, reason) in OTHERS {
            let name = format!("section {section:#x}, type {kind}");
            add(name, Symbol::new(GLOBAL + kind, section, 4), None, reason);
        }
    }
    for kind in [TLS, IFUNC] {
        for section in [1, 4, 6, ABSOLUTE] {
            let name = format!("section {section:#x}, type {kind}");
            add(name, Symbol::new(GLOBAL + kind, section, 0), None, 6);
        }
        for (binding, reason) in [(0, 5), (GLOBAL, 5), (WEAK, 6)] {
            let name = |with: &str| format!("undefined, {binding:#x}, type {kind}, {with} a value");
            let symbol = Symbol::new(binding + kind, 0, 0);
            add(name("without"), symbol, None, reason);
            add(name("with"), symbol, Some(3), 6);
        }
    }
    cases
}

/// "an index past the table", and symbol 0, "whatever its entry holds and even
/// in an empty table".
fn indexes() -> Vec<Case> {
    let some = [Symbol::absolute(1)];
    let past = [2, 3, 256, 0x1_0000, 0xFF_FFFF];
    let case = |index| {
        let name = format!("symbol {index}");
        Case::new(name, &word_of(&some, index, 0), (10, 0, 1))
    };
    let mut cases: Vec<Case> = past.map(case).into_iter().collect();
    for (last, answer) in [(some[0], DONE), (Symbol::new(TLS, 1, 0), (10, 0, 6))] {
        let fit = word_of(&[some[0], last], 2, 0);
        cases.push(Case::new("the last symbol", &fit, answer));
        let fit = word_of(&[some[0], last], 3, 0);
        cases.push(Case::new("past the last symbol", &fit, (10, 0, 1)));
    }
    let after = [vec![0xEE; 4], words(&[0x12])].concat();
    cases.push(Case::done("symbol 0", &word_of(&some, 0, 0x12), &after));
    let mut odd = word_of(&some, 0, 0x12);
    odd.sections[2].symbols_mut()[0] = Symbol::new(0xFF, 0xFFFF, u64::MAX);
    cases.push(Case::done("symbol 0, odd entry", &odd, &after));
    let mut empty = word_of(&[], 0, 0x12);
    empty.sections[2].symbols_mut().clear();
    cases.push(Case::done("symbol 0, empty table", &empty, &after));
    let mut empty = word_of(&[], 1, 0x12);
    empty.sections[2].symbols_mut().clear();
    cases.push(Case::new("symbol 1, empty table", &empty, (10, 0, 1)));
    cases
}

/// "Markers skip 10", and no other type does.
fn every_type() -> Vec<Case> {
    let stores = STORING.map(|(kind, _, _)| (kind, (10, 1, 1), (10, 1, 5)));
    let markers = MARKERS.map(|kind| (kind, DONE, DONE));
    let mut cases = Vec::new();
    for (kind, answer, of_strong) in stores.into_iter().chain(markers) {
        let mut past = of_type(kind);
        past.sections[3].relocations_mut()[1].symbol = 3;
        cases.push(Case::new(format!("type {kind}, past"), &past, answer));
        let symbols = [Symbol::absolute(PLACE + 8), Symbol::new(GLOBAL, 0, 0)];
        let mut strong = of_type(kind);
        strong.sections[3].relocations_mut()[1].symbol = 2;
        let all = [&[Symbol::default()], &symbols[..]].concat();
        strong.sections[2] = Section::symbols(&all);
        cases.push(Case::new(
            format!("type {kind}, strong"),
            &strong,
            of_strong,
        ));
    }
    cases
}

/// What a PCREL_LO12 names, and the answer: "not in the target row (24 and 25 only)"
/// is the last reason.
fn label_rows() -> [(&'static str, Symbol, Answer); 22] {
    [
        ("its own section", Symbol::new(0, 1, 0), DONE),
        ("a section symbol", Symbol::new(3, 1, 0), DONE),
        ("a weak label", Symbol::new(WEAK, 1, 0), DONE),
        ("absolute", Symbol::absolute(0), (10, 1, 7)),
        ("weak, undefined", Symbol::new(WEAK, 0, 0), (10, 1, 7)),
        ("strong, undefined", Symbol::new(GLOBAL, 0, 0), (10, 1, 5)),
        ("a NOBITS section", Symbol::new(0, 4, 0), (10, 1, 7)),
        ("another loaded section", Symbol::new(0, 5, 0), (10, 1, 7)),
        ("the symbol table", Symbol::new(0, 2, 0), (10, 1, 2)),
        ("past the sections", Symbol::new(0, 6, 0), (10, 1, 2)),
        ("section 0xFEFF", Symbol::new(0, 0xFEFF, 0), (10, 1, 2)),
        ("section 0xFF00", Symbol::new(0, 0xFF00, 0), (10, 1, 4)),
        ("common", Symbol::new(0, COMMON, 0), (10, 1, 3)),
        ("TLS", Symbol::new(TLS, 1, 0), (10, 1, 6)),
        ("IFUNC", Symbol::new(IFUNC, 1, 0), (10, 1, 6)),
        ("another, TLS", Symbol::new(TLS, 5, 0), (10, 1, 6)),
        (
            "absolute, IFUNC",
            Symbol::new(IFUNC, ABSOLUTE, 0),
            (10, 1, 6),
        ),
        ("weak, TLS", Symbol::new(WEAK + TLS, 0, 0), (10, 1, 6)),
        ("strong, TLS", Symbol::new(GLOBAL + TLS, 0, 0), (10, 1, 5)),
        ("the symbol table, TLS", Symbol::new(TLS, 2, 0), (10, 1, 2)),
        ("common, TLS", Symbol::new(TLS, COMMON, 0), (10, 1, 3)),
        ("0xFFFF, IFUNC", Symbol::new(IFUNC, 0xFFFF, 0), (10, 1, 4)),
    ]
}

/// "A PCREL_LO12 symbol is above 0 and defined in the record's own target row".
/// The pair is at 0, and all labels have value 0.
fn labels() -> Vec<Case> {
    let mut cases = Vec::new();
    for kind in [PCREL_LO12_I, PCREL_LO12_S] {
        let name = |what: &str| format!("type {kind}, label in {what}");
        for (what, label, answer) in label_rows() {
            cases.push(Case::new(name(what), &label_fit(kind, label, 2), answer));
        }
        let label = Symbol::new(0, 1, 0);
        let past = label_fit(kind, label, 3);
        cases.push(Case::new(name("no symbol"), &past, (10, 1, 1)));
        let zero = label_fit(kind, label, 0);
        cases.push(Case::new(name("symbol 0"), &zero, (10, 1, 7)));
        for entry in [label, Symbol::new(TLS, 1, 0), Symbol::new(0, COMMON, 0)] {
            let mut odd = label_fit(kind, label, 0);
            odd.sections[2].symbols_mut()[0] = entry;
            cases.push(Case::new(name("odd symbol 0"), &odd, (10, 1, 7)));
        }
        for (info, reason) in [(GLOBAL, 7), (WEAK, 7), (GLOBAL + TLS, 6)] {
            let mut valued = label_fit(kind, Symbol::new(info, 0, 0), 2);
            valued.external_values = vec![(2, PLACE)];
            cases.push(Case::new(name("the order"), &valued, (10, 1, reason)));
        }
    }
    cases
}

/// Section 4 is NOBITS, section 5 is loaded.
fn label_fit(kind: u32, label: Symbol, which: u32) -> Fit {
    let opcode = if kind == PCREL_LO12_I { 0x13 } else { 0x23 };
    let list = [
        Relocation::new(0, PCREL_HI20, 1, 0),
        Relocation::new(4, kind, which, 0),
    ];
    let symbols = [Symbol::absolute(0x2345_6789), label];
    let mut fit = at(PLACE, &words(&[0x17, opcode]), &symbols, &list);
    fit.sections.push(Section::nobits(4, 16));
    fit.sections.push(Section::loaded(1, &[3; 4]));
    fit.placements.extend([(4, NOBITS_AT), (5, PLACE + 16)]);
    fit
}

pub fn cases() -> Vec<Case> {
    let mut cases = resolved();
    cases.extend(unresolved());
    cases.extend(indexes());
    cases.extend(every_type());
    cases.extend(labels());
    cases
}

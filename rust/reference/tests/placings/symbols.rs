//! S of symbols of every kind, with the values, and why there is none.

use crate::Case;
use reference::Reason::{self, *};
use testing::build::*;

const BASE: u64 = 0x8000_0000;
const NOBITS_AT: u64 = 0xFFFF_FFF0;
const EMPTY_AT: u64 = 0x10;
/// The highest value of class 1.
const TOP: u64 = 0xFFFF_FFFF;
const LOCAL: u8 = 0;
/// Sections of [`six`] in which no symbol resolves, whatever its type: "row missing
/// or not allocated (sections 1 to 0xFEFF), common (section 0xFFF2), reserved
/// section (0xFF00 and up, but for 0xFFF1 and 0xFFF2)".
const OTHERS: [(u16, Reason); 17] = [
    (2, NotAllocated),
    (4, NotAllocated),
    (6, NotAllocated),
    (7, NotAllocated),
    (127, NotAllocated),
    (128, NotAllocated),
    (129, NotAllocated),
    (0x101, NotAllocated),
    (0xFE01, NotAllocated),
    (0xFEFF, NotAllocated),
    (0xFF00, Reserved),
    (0xFF01, Reserved),
    (0xFFF0, Reserved),
    (COMMON, Common),
    (0xFFF3, Reserved),
    (0xFFFE, Reserved),
    (0xFFFF, Reserved),
];

/// Sections 1, 3 and 5 are allocated, section 4 is the symbol table.
fn six(symbols: &[Symbol], external_values: &[(u32, u64)]) -> Fit {
    let note = Section {
        flags: 0,
        ..Section::loaded(1, &[7; 8])
    };
    let sections = [
        (Section::loaded(4, &[1; 8]), BASE),
        (note, 0),
        (Section::nobits(4, 8), NOBITS_AT),
        (Section::symbols(symbols), 0),
        (Section::loaded(1, &[]), EMPTY_AT),
    ];
    let mut fit = Fit::placed(BASE, 256, &sections);
    fit.placements.retain(|(index, _)| index % 2 == 1);
    fit.external_values = external_values.to_vec();
    fit
}

/// A symbol, the order's value for it, and S.
type Row = (Symbol, Option<u64>, Result<u64, Reason>);

fn defined() -> Vec<Row> {
    let row = |info, section, value, s| (Symbol::new(info, section, value), None, Ok(s));
    vec![
        row(LOCAL, 1, 0, BASE),
        row(GLOBAL, 1, 8, BASE + 8),
        row(WEAK, 1, 9_000, BASE + 9_000),
        row(LOCAL, 1, 0x7FFF_FFFF, TOP),
        row(LOCAL, 1, 0x8000_0000, 0),
        row(LOCAL, 1, 0x8000_0001, 1),
        row(LOCAL, 1, TOP, 0x7FFF_FFFF),
        row(LOCAL, 3, 0, NOBITS_AT),
        row(LOCAL, 3, 15, TOP),
        row(LOCAL, 3, 16, 0),
        row(GLOBAL, 3, TOP, NOBITS_AT - 1),
        row(GLOBAL, 5, 4, EMPTY_AT + 4),
        row(GLOBAL, 5, TOP, EMPTY_AT - 1),
        row(LOCAL, ABSOLUTE, 0, 0),
        row(GLOBAL, ABSOLUTE, 0x1234_5678, 0x1234_5678),
        row(WEAK, ABSOLUTE, TOP, TOP),
    ]
}

fn undefined() -> Vec<Row> {
    let row = |info, external, s| (Symbol::new(info, 0, 0x111), external, s);
    vec![
        row(GLOBAL, Some(7), Ok(7)),
        row(GLOBAL, Some(0), Ok(0)),
        row(GLOBAL, Some(TOP), Ok(TOP)),
        row(GLOBAL, None, Err(Undefined)),
        row(LOCAL, Some(8), Ok(8)),
        row(LOCAL, None, Err(Undefined)),
        row(WEAK, Some(0x8765_4321), Ok(0x8765_4321)),
        row(WEAK, Some(0), Ok(0)),
        row(WEAK, None, Ok(0)),
        row(0x30, Some(9), Ok(9)),
        row(0x30, None, Err(Undefined)),
        row(0x60, None, Err(Undefined)),
        row(0xA0, None, Err(Undefined)),
        row(0x02, None, Err(Undefined)),
        row(0x12, None, Err(Undefined)),
        row(0xF2, None, Err(Undefined)),
        row(0x22, None, Ok(0)),
        row(0x2F, None, Ok(0)),
    ]
}

/// "Anything else [...] and types TLS 6 and IFUNC 10 do not resolve." The type is
/// the last reason: "the first that applies, in this order".
fn unresolved() -> Vec<Row> {
    let mut rows = Vec::new();
    for kind in [0, TLS, IFUNC] {
        for (section, reason) in OTHERS {
            for binding in [LOCAL, GLOBAL, WEAK] {
                let symbol = Symbol::new(binding + kind, section, 5);
                rows.push((symbol, None, Err(reason)));
            }
        }
    }
    for kind in [TLS, IFUNC] {
        for section in [1, 3, 5, ABSOLUTE] {
            rows.push((Symbol::new(GLOBAL + kind, section, 4), None, Err(WrongType)));
        }
        let undefined = |binding: u8| Symbol::new(binding + kind, 0, 0);
        for binding in [LOCAL, GLOBAL, WEAK] {
            rows.push((undefined(binding), Some(3), Err(WrongType)));
        }
        rows.push((undefined(LOCAL), None, Err(Undefined)));
        rows.push((undefined(GLOBAL), None, Err(Undefined)));
        rows.push((undefined(WEAK), None, Err(WrongType)));
    }
    rows
}

/// All these symbols in one table.
fn table(name: &str, rows: &[Row]) -> Case {
    let symbols = rows.iter().map(|row| row.0);
    let all: Vec<Symbol> = [Symbol::default()].into_iter().chain(symbols).collect();
    let given = (1..).zip(rows);
    let externals: Vec<(u32, u64)> = given
        .clone()
        .filter_map(|(index, row)| Some((index, row.1?)))
        .collect();
    let mut case = Case::new(name, &six(&all, &externals), (0, 0));
    case.values = given.map(|(index, row)| (index, row.2)).collect();
    let past = all.len() as u32;
    let last = [
        (0, Ok(0)),
        (past, Err(PastTable)),
        (past + 2, Err(PastTable)),
    ];
    case.values.extend(last);
    case
}

/// "0 for symbol 0, whatever its entry holds and even in an empty table"
fn symbol_0() -> Vec<Case> {
    let entries = [
        Symbol::new(GLOBAL, 1, 99),
        Symbol::new(GLOBAL, 2, 99),
        Symbol::new(GLOBAL, 0, 99),
        Symbol::new(GLOBAL + TLS, 77, 99),
        Symbol::new(IFUNC, ABSOLUTE, 99),
        Symbol::new(GLOBAL, COMMON, 99),
        Symbol::absolute(99),
    ];
    let with = |name: &str, fit: &Fit, count: u32| {
        let mut case = Case::new(name, fit, (0, 0));
        case.values = vec![(0, Ok(0))];
        let past = [count.max(1), count + 1, count + 2];
        case.values
            .extend(past.map(|index| (index, Err(PastTable))));
        case
    };
    let no_table = Fit::placed(BASE, 8, &[(Section::loaded(4, &[1; 8]), BASE)]);
    let mut cases = vec![
        with("no table", &no_table, 0),
        with("an empty table", &six(&[], &[]), 0),
    ];
    cases.extend(entries.map(|entry| with("an odd symbol 0", &six(&[entry], &[]), 1)));
    cases
}

/// Every type, binding and section together, undefined ones once with a value
/// and once without.
fn every_kind() -> Case {
    let mut symbols = vec![Symbol::default()];
    let mut externals = Vec::new();
    for kind in 0..16 {
        for binding in [LOCAL, GLOBAL, WEAK, 0x30, 0xA0] {
            for section in [
                1, 2, 3, 5, 6, 128, 0xFEFF, 0xFF00, ABSOLUTE, COMMON, 0xFFFF, 0, 0,
            ] {
                let at = symbols.len() as u32;
                let is_second = symbols.last().is_some_and(|last| last.section == 0);
                if section == 0 && is_second {
                    externals.push((at, u64::from(at) << 20));
                }
                symbols.push(Symbol::new(
                    binding + kind,
                    section,
                    u64::from(at) * 0x0030_0001,
                ));
            }
        }
    }
    Case::new("every kind", &six(&symbols, &externals), (0, 0))
}

/// A symbol of each of 128 sections, of which every third is not allocated.
fn every_section() -> Case {
    let is_allocated = |index: u32| !index.is_multiple_of(3);
    let symbol = |section: u16| Symbol::new(GLOBAL, section, 0x10_0000);
    let symbols: Vec<Symbol> = (0..130).map(symbol).collect();
    let mut sections: Vec<(Section, u64)> = (1..128)
        .map(|index| (Section::loaded(1, &[1]), BASE + index))
        .collect();
    for (section, _) in sections.iter_mut().skip(2).step_by(3) {
        section.flags = 0;
    }
    sections[125].0 = Section::symbols(&symbols);
    let mut fit = Fit::placed(BASE, 256, &sections);
    fit.placements.retain(|(index, _)| is_allocated(*index));
    let mut case = Case::new("every section", &fit, (0, 0));
    let value = |index: u32| {
        let is_placed = index < 128 && is_allocated(index);
        let value = BASE + 0x10_0000 + u64::from(index);
        (index, is_placed.then_some(value).ok_or(NotAllocated))
    };
    case.values = (1..130).map(value).collect();
    case
}

pub fn cases() -> Vec<Case> {
    let mut cases = vec![
        table("defined symbols", &defined()),
        table("undefined symbols", &undefined()),
        table("unresolved symbols", &unresolved()),
        table(
            "all symbols",
            &[unresolved(), defined(), undefined()].concat(),
        ),
        every_kind(),
        every_section(),
    ];
    cases.extend(symbol_0());
    cases
}

/// Values of class 2 that class 1 does not have, and sums modulo 2^64.
pub fn cases_of_class_2() -> Vec<Case> {
    const NOBITS_AT: u64 = 0_u64.wrapping_sub(16);
    const BASE: u64 = 0x8000_0000_0000_0000;
    let rows: [Row; 16] = [
        (Symbol::new(LOCAL, 1, 0), None, Ok(BASE)),
        (Symbol::new(LOCAL, 1, 1 << 32), None, Ok(BASE + (1 << 32))),
        (Symbol::new(LOCAL, 1, BASE - 1), None, Ok(u64::MAX)),
        (Symbol::new(LOCAL, 1, BASE), None, Ok(0)),
        (Symbol::new(LOCAL, 1, BASE + 1), None, Ok(1)),
        (Symbol::new(LOCAL, 1, u64::MAX), None, Ok(BASE - 1)),
        (Symbol::new(GLOBAL, 3, 15), None, Ok(u64::MAX)),
        (Symbol::new(GLOBAL, 3, 16), None, Ok(0)),
        (Symbol::new(GLOBAL, 3, TOP), None, Ok(TOP - 16)),
        (Symbol::new(WEAK, 5, TOP), None, Ok(TOP + EMPTY_AT)),
        (Symbol::absolute(u64::MAX), None, Ok(u64::MAX)),
        (Symbol::absolute(1 << 32), None, Ok(1 << 32)),
        (Symbol::new(GLOBAL, 0, 1), Some(u64::MAX), Ok(u64::MAX)),
        (Symbol::new(GLOBAL, 0, 1), Some(1 << 32), Ok(1 << 32)),
        (Symbol::new(WEAK, 0, 1 << 32), None, Ok(0)),
        (
            Symbol::new(GLOBAL + TLS, 0, 0),
            Some(1 << 32),
            Err(WrongType),
        ),
    ];
    let mut case = table("values of class 2", &rows);
    let mut fit = case.fit.expect("a fit").of(Class::Elf64);
    fit.base = BASE;
    fit.placements = vec![(1, BASE), (3, NOBITS_AT), (5, EMPTY_AT)];
    case = Case {
        values: case.values,
        ..Case::new("values of class 2", &fit, (0, 0))
    };
    vec![case]
}

//! Placements against sections and external values against symbols: checks 6
//! and 7, each sentence just kept and just broken, with the answer.

use crate::Case;
use testing::build::*;

const BASE: u64 = 0x1000;
const DONE: (u32, u32) = (0, 0);
/// The section number of a common symbol.
const COMMON: u16 = 0xFFF2;

fn note(size: usize) -> Section {
    Section {
        kind: 7,
        bytes: vec![7; size],
        ..Section::default()
    }
}

/// Sections 1, 3 and 5 are allocated, section 4 is the symbol table.
fn six() -> Fit {
    let symbols = [
        Symbol::default(),
        Symbol::new(GLOBAL, 0, 0),
        Symbol::new(WEAK, 0, 0),
        Symbol::new(0, 1, 0),
        Symbol::absolute(5),
        Symbol::new(GLOBAL, COMMON, 4),
        Symbol::new(GLOBAL, 0xFF00, 0),
        Symbol::new(GLOBAL, 0xFFFF, 0),
        Symbol::new(GLOBAL + 6, 0, 0),
        Symbol::new(WEAK + 10, 0, 0),
        Symbol::new(0, 0, 0),
        Symbol::new(0, 6, 0),
        Symbol::new(0, 2, 0),
    ];
    let mut fit = Fit::placed(
        BASE,
        64,
        &[
            (Section::loaded(4, &[1; 4]), 0),
            (note(9), 0),
            (Section::nobits(4, 8), 0),
            (Section::symbols(&symbols), 0),
            (Section::loaded(1, &[]), 0),
        ],
    );
    fit.placements = at_rows(&[1, 3, 5]);
    fit
}

/// Sections with addresses; those of sections 1, 3 and 5 keep check 8.
fn at_rows(rows: &[u32]) -> Vec<(u32, u64)> {
    let address = |row: u32| BASE + u64::from(row % 8) * 8 - 8;
    rows.iter().map(|row| (*row, address(*row))).collect()
}

/// Which sections are placed, and the answer.
fn placements() -> Vec<(&'static str, Vec<u32>, (u32, u32))> {
    vec![
        ("as they should be", vec![1, 3, 5], DONE),
        ("none", vec![], (6, 1)),
        ("first missing", vec![3, 5], (6, 1)),
        ("NOBITS missing", vec![1, 5], (6, 3)),
        ("empty one missing", vec![1, 3], (6, 5)),
        ("only the last", vec![5], (6, 1)),
        ("row 0", vec![0, 1, 3, 5], (6, 0)),
        ("one that is not allocated", vec![1, 2, 3, 5], (6, 2)),
        ("the symbol table", vec![1, 3, 4, 5], (6, 4)),
        ("just past the table", vec![1, 3, 5, 6], (6, 6)),
        ("row 127", vec![1, 3, 5, 127], (6, 127)),
        ("row 128", vec![1, 3, 5, 128], (6, 128)),
        ("row 129", vec![1, 3, 5, 129], (6, 129)),
        ("row 257", vec![1, 3, 5, 257], (6, 257)),
        ("row 65,537", vec![1, 3, 5, 65_537], (6, 65_537)),
        ("row 2^31", vec![1, 3, 5, 1 << 31], (6, 1 << 31)),
        ("row 2^32 - 1", vec![1, 3, 5, u32::MAX], (6, u32::MAX)),
        (
            "many past the table",
            vec![1, 3, 5, 9, 127, 128, 177],
            (6, 9),
        ),
        ("extra below missing", vec![1, 2, 5], (6, 2)),
        ("missing below extra", vec![1, 4, 5], (6, 3)),
        ("row 0 below missing", vec![0, 3, 5], (6, 0)),
        ("missing below 2^32 - 1", vec![3, 5, u32::MAX], (6, 1)),
        ("last missing below row 127", vec![1, 3, 127], (6, 5)),
        ("last missing below row 6", vec![1, 3, 6], (6, 5)),
        ("extra just below missing", vec![1, 3, 4], (6, 4)),
        ("all the others", vec![0, 2, 4, 6], (6, 0)),
        ("all the others but row 0", vec![2, 4, 6], (6, 1)),
    ]
}

fn placement_cases() -> Vec<Case> {
    let case = |(name, rows, stated): (&str, Vec<u32>, (u32, u32))| {
        let mut fit = six();
        fit.placements = at_rows(&rows);
        Case::new(format!("placed: {name}"), &fit, stated)
    };
    placements().into_iter().map(case).collect()
}

/// A table of 128 sections; all but section 0 and this one are allocated.
fn full(not_allocated: Option<usize>) -> Fit {
    let section = (Section::loaded(1, &[3]), 0);
    let mut fit = Fit::placed(BASE, 256, &vec![section; 127]);
    fit.placements.clear();
    if let Some(section) = not_allocated {
        fit.sections[section].flags = 0;
    }
    fit
}

fn full_cases() -> Vec<Case> {
    let all_but = |row: u32| (1..128).filter(|other| *other != row).collect::<Vec<u32>>();
    let with = |row: u32, mut rows: Vec<u32>| {
        rows.push(row);
        rows.sort_unstable();
        rows
    };
    let table = [
        ("all of them", None, all_but(0), DONE),
        ("127 missing", None, all_but(127), (6, 127)),
        ("1 missing", None, all_but(1), (6, 1)),
        ("17 missing", None, all_but(17), (6, 17)),
        ("0 too", None, with(0, all_but(0)), (6, 0)),
        ("128 too", None, with(128, all_but(0)), (6, 128)),
        ("0 instead of 127", None, with(0, all_but(127)), (6, 0)),
        (
            "128 instead of 127",
            None,
            with(128, all_but(127)),
            (6, 127),
        ),
        ("127 not allocated", Some(127), all_but(127), DONE),
        ("127 placed", Some(127), all_but(0), (6, 127)),
        ("1 placed", Some(1), all_but(0), (6, 1)),
        ("1 not allocated", Some(1), all_but(1), DONE),
    ];
    let case = |(name, not_allocated, rows, stated): (_, _, Vec<u32>, _)| {
        let mut fit = full(not_allocated);
        let address = |row: &u32| BASE + u64::from(*row);
        fit.placements = rows.iter().map(|row| (*row, address(row))).collect();
        Case::new(format!("128 rows: {name}"), &fit, stated)
    };
    table.map(case).into()
}

/// Sections whose type or flags decide whether they are allocated.
fn allocation_cases() -> Vec<Case> {
    let table = [
        ("flag 2", PROGBITS, 2, true),
        ("all flags", PROGBITS, u64::MAX, true),
        ("all other flags", PROGBITS, !2, false),
        ("no flag", PROGBITS, 0, false),
        ("flag 4", PROGBITS, 4, false),
        ("NULL", NULL, 2, false),
        ("NOBITS", NOBITS, 2, true),
        ("NOBITS, no flag", NOBITS, 1, false),
        ("a type of a processor", 0x7000_0003, 2, true),
    ];
    let case = |(name, kind, flags, is_allocated)| {
        let section = Section {
            kind,
            flags,
            ..Section::loaded(1, &[1; 4])
        };
        let placed = Fit::placed(BASE, 64, &[(section, BASE)]);
        let mut unplaced = placed.clone();
        unplaced.placements.clear();
        let answer = |holds| if holds { DONE } else { (6, 1) };
        [
            Case::new(format!("placed {name}"), &placed, answer(is_allocated)),
            Case::new(
                format!("not placed {name}"),
                &unplaced,
                answer(!is_allocated),
            ),
        ]
    };
    table.into_iter().flat_map(case).collect()
}

/// Which symbols have values, and the answer. Symbols 1, 2, 8, 9 and 10 of 13
/// are undefined.
fn externals() -> Vec<(&'static str, Vec<u32>, (u32, u32))> {
    vec![
        ("none", vec![], DONE),
        ("a strong one", vec![1], DONE),
        ("a weak one", vec![2], DONE),
        ("TLS", vec![8], DONE),
        ("IFUNC", vec![9], DONE),
        ("a local one", vec![10], DONE),
        ("all undefined ones", vec![1, 2, 8, 9, 10], DONE),
        ("symbol 0", vec![0], (7, 0)),
        ("symbol 0 first", vec![0, 1, 3], (7, 0)),
        ("a defined one", vec![3], (7, 3)),
        ("absolute", vec![4], (7, 4)),
        ("common", vec![5], (7, 5)),
        ("section 0xFF00", vec![6], (7, 6)),
        ("section 0xFFFF", vec![7], (7, 7)),
        ("a section past the table", vec![11], (7, 11)),
        ("a section that is not allocated", vec![12], (7, 12)),
        ("just past the table", vec![13], (7, 13)),
        ("further past the table", vec![14], (7, 14)),
        ("symbol 257", vec![257], (7, 257)),
        ("symbol 8,192", vec![8_192], (7, 8_192)),
        ("symbol 65,537", vec![65_537], (7, 65_537)),
        ("symbol 2^28 + 1", vec![(1 << 28) + 1], (7, (1 << 28) + 1)),
        ("symbol 2^31", vec![1 << 31], (7, 1 << 31)),
        ("symbol 2^32 - 1", vec![u32::MAX], (7, u32::MAX)),
        ("the lowest of two", vec![1, 3, 4], (7, 3)),
        ("the lowest of three", vec![2, 4, 8, 12, 13], (7, 4)),
        ("the last", vec![1, 2, 8, 9, 10, u32::MAX], (7, u32::MAX)),
        ("all", (0..13).collect(), (7, 0)),
        ("all but symbol 0", (1..13).collect(), (7, 3)),
    ]
}

fn values(symbols: &[u32]) -> Vec<(u32, u64)> {
    let value = |symbol: u32| u64::from(symbol).wrapping_mul(0x9E37_79B9_7F4A_7C15);
    symbols
        .iter()
        .map(|symbol| (*symbol, value(*symbol)))
        .collect()
}

fn external_cases() -> Vec<Case> {
    let case = |(name, symbols, stated): (&str, Vec<u32>, (u32, u32))| {
        let mut fit = six();
        fit.external_values = values(&symbols);
        Case::new(format!("values: {name}"), &fit, stated)
    };
    externals().into_iter().map(case).collect()
}

/// No table, an empty one, one of symbol 0 alone, and a full one.
fn table_cases() -> Vec<Case> {
    let undefined = |count: usize| vec![Symbol::new(GLOBAL, 0, 0); count];
    let no_table = Fit::placed(BASE, 64, &[]);
    let with = |symbols: &[Symbol]| {
        let mut fit = no_table.clone();
        fit.sections.push(Section::symbols(symbols));
        fit
    };
    let (empty, one, whole) = (with(&[]), with(&undefined(1)), with(&undefined(8_192)));
    let table = [
        ("no table, no value", &no_table, vec![], DONE),
        ("no table, symbol 0", &no_table, vec![0], (7, 0)),
        ("no table, symbol 1", &no_table, vec![1], (7, 1)),
        ("no table, last", &no_table, vec![u32::MAX], (7, u32::MAX)),
        ("empty, no value", &empty, vec![], DONE),
        ("empty, symbol 0", &empty, vec![0], (7, 0)),
        ("empty, symbol 1", &empty, vec![1], (7, 1)),
        ("one, no value", &one, vec![], DONE),
        ("one, symbol 0", &one, vec![0], (7, 0)),
        ("one, symbol 1", &one, vec![1], (7, 1)),
        ("full, all", &whole, (1..8_192).collect(), DONE),
        ("full, one more", &whole, (1..8_193).collect(), (7, 8_192)),
        ("full, symbol 0 too", &whole, (0..8_192).collect(), (7, 0)),
    ];
    let case = |(name, fit, symbols, stated): (_, &Fit, Vec<u32>, _)| {
        let mut fit = fit.clone();
        fit.external_values = values(&symbols);
        Case::new(format!("table: {name}"), &fit, stated)
    };
    table.map(case).into()
}

/// All of checks 2 to 8 broken, then mended one after the other: "the checks
/// run 1, 4, 2, 3, 5 for both classes".
pub fn in_order(class: Class) -> Vec<Case> {
    let mut fit = six().of(class);
    fit.sections[1].alignment = 3;
    fit.placements = vec![(2, 5)];
    fit.external_values = vec![(3, 0)];
    fit.image = vec![0; 1_048_577];
    let whole = Case::new("", &fit, (4, 0));
    let with = |name: &str, stated, change: &dyn Fn(&mut Case)| {
        let mut case = whole.clone();
        change(&mut case);
        Case {
            name: format!("{class:?}: {name}"),
            stated: Some(stated),
            fit: None,
            ..case
        }
    };
    let mut cases = vec![
        with("nothing mended", (4, 0), &|case| {
            case.object[0] = 0;
            case.order.push(0);
        }),
        with("4 mended", (2, 0), &|case| case.order.push(0)),
        with("4 and 2 mended", (3, 0), &|_| ()),
        with("2 and 3 mended", (4, 0), &|case| {
            case.object[0] = 0;
            case.image_length = 64;
        }),
    ];
    fit.image.truncate(64);
    cases.push(Case::new("2 to 4 mended", &fit, (5, 1)));
    fit.sections[1].alignment = 4;
    cases.push(Case::new("2 to 5 mended", &fit, (6, 1)));
    fit.placements = vec![(1, 5), (3, 0), (5, 0)];
    cases.push(Case::new("2 to 6 mended", &fit, (7, 3)));
    fit.external_values.clear();
    cases.push(Case::new("2 to 7 mended", &fit, (8, 1)));
    fit.placements[0].1 = BASE;
    cases.push(Case::new("all mended", &fit, DONE));
    cases
}

pub fn cases() -> Vec<Case> {
    let mut cases = placement_cases();
    cases.extend(full_cases());
    cases.extend(allocation_cases());
    cases.extend(external_cases());
    cases.extend(table_cases());
    cases
}

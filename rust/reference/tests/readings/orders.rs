//! Orders and windows, right ones and slightly wrong ones, with the answers.

use crate::{Case, Question};
use testing::build::{number_of, order, Class};

const DONE: (u32, u32) = (0, 0);
const MALFORMED: (u32, u32) = (2, 0);

/// An order's numbers, each a count or an index (false), or as long as an address
/// (true).
fn words(class: Class, words: &[(u64, bool)]) -> Vec<u8> {
    let bytes = |(number, is_long): &(u64, bool)| match is_long {
        true => number_of(class, *number),
        false => number_of(Class::Elf32, *number),
    };
    words.iter().flat_map(bytes).collect()
}

/// Entries with these indexes; the values tell them apart.
fn list(indexes: &[u32]) -> Vec<(u32, u64)> {
    let value = |index: u32| u64::from(index).wrapping_mul(0x9E37_79B9_7F4A_7C15);
    indexes
        .iter()
        .map(|index| (*index, value(*index)))
        .collect()
}

/// So many entries, with the odd indexes.
fn many(count: u32) -> Vec<(u32, u64)> {
    list(&(0..count).map(|at| 2 * at + 1).collect::<Vec<u32>>())
}

/// Words that are no order, or are one just so.
fn raw(class: Class) -> Vec<(&'static str, (u32, u32), Vec<u8>)> {
    const LONG: [bool; 8] = [false, true, false, false, true, false, false, true];
    let right = [1, 9, 1, 4, 5, 1, 6, 7];
    let ones = u64::from(u32::MAX);
    let in_bytes = |numbers: &[u64; 8]| {
        let typed: Vec<(u64, bool)> = numbers.iter().copied().zip(LONG).collect();
        words(class, &typed)
    };
    let with = |at: usize, word: u64| {
        let mut changed = right;
        changed[at] = word;
        in_bytes(&changed)
    };
    let and = |left: usize| [in_bytes(&right), vec![0; left]].concat();
    let base = |count: u64, rest: &[u64]| {
        let rest = rest.iter().map(|word| (*word, false));
        let all: Vec<(u64, bool)> = [(count, false), (0, true)]
            .into_iter()
            .chain(rest)
            .collect();
        words(class, &all)
    };
    let no_base = words(class, &[(0, false), (0, false), (0, false)]);
    let other_class = match class {
        Class::Elf32 => Class::Elf64,
        Class::Elf64 => Class::Elf32,
    };
    vec![
        ("an order", DONE, in_bytes(&right)),
        ("count of the base 0", MALFORMED, with(0, 0)),
        ("count of the base 2", MALFORMED, with(0, 2)),
        ("count of the base 257", MALFORMED, with(0, 257)),
        (
            "count of the base 2^24 + 1",
            MALFORMED,
            with(0, (1 << 24) + 1),
        ),
        ("no base", MALFORMED, no_base),
        ("two bases", MALFORMED, base(2, &[0, 0, 0, 0])),
        ("a base of ones", DONE, with(1, u64::MAX)),
        ("a placement less", MALFORMED, with(2, 0)),
        ("a placement more", MALFORMED, with(2, 2)),
        ("2^29 + 1 placements", MALFORMED, with(2, (1 << 29) + 1)),
        ("2^32 - 1 placements", MALFORMED, with(2, ones)),
        ("section 2^32 - 1", DONE, with(3, ones)),
        ("section 127", DONE, with(3, 127)),
        ("section 128", DONE, with(3, 128)),
        ("section 0", DONE, with(3, 0)),
        ("an address of ones", DONE, with(4, u64::MAX)),
        ("an external value less", MALFORMED, with(5, 0)),
        ("an external value more", MALFORMED, with(5, 2)),
        (
            "2^29 + 1 external values",
            MALFORMED,
            with(5, (1 << 29) + 1),
        ),
        ("2^32 - 1 external values", MALFORMED, with(5, ones)),
        ("symbol 2^32 - 1", DONE, with(6, ones)),
        ("a value of ones", DONE, with(7, u64::MAX)),
        ("nothing placed", DONE, base(1, &[0, 0])),
        ("a byte left over", MALFORMED, and(1)),
        ("a word left over", MALFORMED, and(4)),
        ("an entry left over", MALFORMED, and(8)),
        ("an entry of class 2 left over", MALFORMED, and(12)),
        ("600 bytes left over", MALFORMED, and(600)),
        ("only zeros", MALFORMED, vec![0; 16]),
        (
            "an order of the other class",
            MALFORMED,
            order(other_class, 9, &[(4, 5)], &[(6, 7)]),
        ),
    ]
}

/// Lists of indexes, once as placements and once as external values.
fn lists() -> Vec<(&'static str, (u32, u32), Vec<u32>)> {
    vec![
        ("rising", DONE, vec![1, 2, 3]),
        (
            "rising with gaps",
            DONE,
            vec![0, 7, 127, 128, 129, u32::MAX],
        ),
        (
            "around 2^31",
            DONE,
            vec![(1 << 31) - 1, 1 << 31, (1 << 31) + 1],
        ),
        ("equal at the start", MALFORMED, vec![1, 1, 2]),
        ("equal in the middle", MALFORMED, vec![1, 2, 2, 3]),
        ("equal at the end", MALFORMED, vec![1, 2, 3, 3]),
        ("equal at 2^32 - 1", MALFORMED, vec![1, u32::MAX, u32::MAX]),
        ("falling at the start", MALFORMED, vec![2, 1, 3]),
        ("falling in the middle", MALFORMED, vec![1, 3, 2, 4]),
        ("falling at the end", MALFORMED, vec![1, 2, 4, 3]),
        ("from 2^32 - 1 to 0", MALFORMED, vec![u32::MAX, 0]),
        ("from 2^31 to 1", MALFORMED, vec![1 << 31, 1]),
        ("256 after 255", DONE, vec![255, 256]),
        ("255 after 256", MALFORMED, vec![256, 255]),
    ]
}

fn list_cases(class: Class) -> Vec<Case> {
    let case =
        |name: String, bytes, stated| Case::new(name, Question::Order(class, bytes), Some(stated));
    let both = |(name, stated, indexes): (&str, (u32, u32), Vec<u32>)| {
        let (entries, other) = (list(&indexes), list(&[2, 5]));
        [
            case(
                format!("sections {name}"),
                order(class, 7, &entries, &other),
                stated,
            ),
            case(
                format!("symbols {name}"),
                order(class, 7, &other, &entries),
                stated,
            ),
        ]
    };
    lists().into_iter().flat_map(both).collect()
}

fn many_cases(class: Class) -> Vec<Case> {
    let table = [
        (127, 0, DONE),
        (128, 0, DONE),
        (129, 0, MALFORMED),
        (256, 0, MALFORMED),
        (0, 8_191, DONE),
        (0, 8_192, DONE),
        (0, 8_193, MALFORMED),
        (128, 8_192, DONE),
        (129, 8_192, MALFORMED),
        (128, 8_193, MALFORMED),
    ];
    let case = |(placements, externals, stated)| {
        let name = format!("{placements} placements, {externals} external values");
        let bytes = order(class, 0x2000_0000, &many(placements), &many(externals));
        Case::new(name, Question::Order(class, bytes), Some(stated))
    };
    table.map(case).into()
}

/// One entry of a long list is equal to the one before it.
fn late_faults(class: Class) -> Vec<Case> {
    let case = |at: usize| {
        let mut entries = many(8_192);
        entries[at].0 = entries[at - 1].0;
        let bytes = order(class, 1, &many(128), &entries);
        Case::new(
            format!("entry {at} repeats"),
            Question::Order(class, bytes),
            Some(MALFORMED),
        )
    };
    [1, 2, 4_096, 8_190, 8_191].map(case).into()
}

/// An order cut at every length.
fn cut(class: Class) -> Vec<Case> {
    let whole = order(class, 0x8000_0000, &many(3), &many(4));
    let case = |length: usize| {
        let stated = if length == whole.len() {
            DONE
        } else {
            MALFORMED
        };
        let bytes = whole[..length].to_vec();
        Case::new(
            format!("{length} bytes of an order"),
            Question::Order(class, bytes),
            Some(stated),
        )
    };
    (0..=whole.len()).map(case).collect()
}

/// Base, length and the number of an install.
fn windows(class: Class) -> Vec<Case> {
    const LONGEST: u32 = u32::MAX;
    let end = (class.address_end() - 1) as u64;
    let half = end / 2 + 1;
    let table = [
        (0, 0, 0),
        (0, 1, 0),
        (0, 1_048_575, 0),
        (0, 1_048_576, 0),
        (0, 1_048_577, 3),
        (0, LONGEST, 3),
        (half, 1_048_576, 0),
        (half, 0x8000_0000, 3),
        (end - 1_048_575, 1_048_575, 0),
        (end - 1_048_575, 1_048_576, 0),
        (end - 1_048_575, 1_048_577, 3),
        (end - 1_048_574, 1_048_575, 0),
        (end - 1_048_574, 1_048_576, 3),
        (end - 9, 10, 0),
        (end - 9, 11, 3),
        (end, 0, 0),
        (end, 1, 0),
        (end, 2, 3),
        (end, 1_048_576, 3),
        (end, LONGEST, 3),
    ];
    let case = |(base, length, number)| {
        let name = format!("window of {base:#x} and {length}");
        let question = Question::Window(class, base, length);
        Case::new(name, question, Some((number, 0)))
    };
    let mut cases: Vec<Case> = table.map(case).into();
    if class == Class::Elf64 {
        // Across 2^32, and at it.
        let across = [(0xFFFF_FFFF, 1_048_576, 0), (1 << 32, 1_048_576, 0)];
        cases.extend(across.map(case));
    }
    cases
}

pub fn cases(class: Class) -> Vec<Case> {
    let raw = raw(class)
        .into_iter()
        .map(|(name, stated, bytes)| Case::new(name, Question::Order(class, bytes), Some(stated)));
    let cases = raw
        .chain(list_cases(class))
        .chain(many_cases(class))
        .chain(late_faults(class))
        .chain(cut(class))
        .chain(windows(class));
    let named = |case: Case| Case {
        name: format!("{}, {class:?}", case.name),
        ..case
    };
    cases.map(named).collect()
}

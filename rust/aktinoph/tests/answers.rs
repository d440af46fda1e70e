//! Document 01's answers: their numbers and places, what the C header calls
//! them, and in which words they are written; and the same of Ticket 9's reasons.

use aktinoph::{Answer, Calls, Reason, LEDGER_HEAD, STACK};

/// The header's name, the answer, its number and place, and its words.
type Row = (&'static str, Answer, u32, u32, &'static str);

#[rustfmt::skip]
const ANSWERS: [Row; 17] = [
    ("AKTINOPH_DONE", Answer::Done, 0, 0, "done"),
    ("AKTINOPH_LEDGER_UNSOUND", Answer::LedgerUnsound, 1, 0,
     "the ledger is not sound"),
    ("AKTINOPH_ORDER_MALFORMED", Answer::OrderMalformed, 2, 0,
     "the order's bytes are malformed"),
    ("AKTINOPH_WINDOW_BROKEN", Answer::WindowBroken, 3, 0,
     "the image is too long, or the window ends above 2^32 (RV64: 2^64)"),
    ("AKTINOPH_BAD_HEADER", Answer::BadHeader, 4, 0,
     "the ELF header or the object's length is not allowed"),
    ("AKTINOPH_BAD_SECTION", Answer::BadSection(127), 5, 127,
     "section 127: the section header breaks a rule"),
    ("AKTINOPH_PLACEMENTS_DIFFER", Answer::PlacementsDiffer(u32::MAX), 6, u32::MAX,
     "section 4294967295: only placed, or only allocated"),
    ("AKTINOPH_WRONG_EXTERNAL", Answer::WrongExternal(0), 7, 0,
     "symbol 0: a value for a symbol that is not undefined"),
    ("AKTINOPH_MISPLACED", Answer::Misplaced(3), 8, 3,
     "section 3: misaligned, outside the window, or overlapping"),
    ("AKTINOPH_RELOCATION_SHAPE", Answer::RelocationShape(0), 9, 0,
     "relocation 0: type, offset, overlap or addend is not allowed"),
    ("AKTINOPH_SYMBOL_UNRESOLVED", Answer::SymbolUnresolved(32_767, Reason::Common), 10, 32_767,
     "relocation 32767: its symbol is common, and lies in no section"),
    ("AKTINOPH_WRONG_INSTRUCTION", Answer::WrongInstruction(1), 11, 1,
     "relocation 1: not an instruction that the type is for"),
    ("AKTINOPH_NOT_ONE_PAIR", Answer::NotOnePair(2), 12, 2,
     "relocation 2: not exactly one PCREL_HI20 for this PCREL_LO12"),
    ("AKTINOPH_OUT_OF_REACH", Answer::OutOfReach(7), 13, 7,
     "relocation 7: the distance is odd or too far, or no multiple of 4 without compressed instructions"),
    ("AKTINOPH_PADDING_OFF_BOUNDARY", Answer::PaddingOffBoundary(8), 14, 8,
     "relocation 8: the padding does not end on its boundary"),
    ("AKTINOPH_LEDGER_FULL", Answer::LedgerFull, 15, 0,
     "the ledger has 16 fits, or no room for the old bytes"),
    ("AKTINOPH_NOTHING_STANDS", Answer::NothingStands, 16, 0,
     "no fit stands"),
];

/// The header's name, the reason, its number, and the words of 10 at 7.
#[rustfmt::skip]
const REASONS: [(&str, Reason, u32, &str); 7] = [
    ("AKTINOPH_SYMBOL_PAST_TABLE", Reason::PastTable, 1,
     "relocation 7: its symbol is past the end of the symbol table"),
    ("AKTINOPH_SYMBOL_NOT_ALLOCATED", Reason::NotAllocated, 2,
     "relocation 7: its symbol's section is missing or not allocated"),
    ("AKTINOPH_SYMBOL_COMMON", Reason::Common, 3,
     "relocation 7: its symbol is common, and lies in no section"),
    ("AKTINOPH_SYMBOL_RESERVED", Reason::Reserved, 4,
     "relocation 7: its symbol's section is a reserved number"),
    ("AKTINOPH_SYMBOL_UNDEFINED", Reason::Undefined, 5,
     "relocation 7: its symbol is undefined, not weak, and the order gives it no value"),
    ("AKTINOPH_SYMBOL_WRONG_TYPE", Reason::WrongType, 6,
     "relocation 7: its symbol is of type TLS or IFUNC"),
    ("AKTINOPH_SYMBOL_NOT_IN_TARGET", Reason::NotInTarget, 7,
     "relocation 7: its symbol is not in the section that it patches"),
];

#[test]
fn reasons() {
    for (_, reason, number, words) in REASONS {
        let answer = Answer::SymbolUnresolved(7, reason);
        assert_eq!(answer.numbers(), (10, 7, number));
        assert_eq!(answer.reason(), Some(reason));
        assert_eq!(reason.number(), number);
        assert_eq!(answer.to_string(), words);
    }
    assert_eq!(REASONS.map(|row| row.1), Reason::ALL);
}

/// "all other answers carry 0 there"
#[test]
fn other_answers_have_no_reason() {
    for (_, answer, number, place, _) in ANSWERS {
        let reason = if number == 10 { 3 } else { 0 };
        assert_eq!(answer.numbers(), (number, place, reason));
        assert_eq!(answer.reason().is_some(), number == 10, "{answer:?}");
    }
}

#[test]
fn numbers_places_and_words() {
    for (_, answer, number, place, words) in ANSWERS {
        assert_eq!((answer.number(), answer.place()), (number, place));
        assert_eq!(answer.to_string(), words);
        assert_eq!(answer.is_done(), number == 0);
    }
}

/// As an error, an answer has the same words.
#[test]
fn refusals() {
    assert_eq!(Answer::Done.check(), Ok(()));
    for (_, answer, _, _, words) in &ANSWERS[1..] {
        let refusal = answer.check().expect_err("refused");
        assert_eq!(refusal.answer(), *answer);
        assert_eq!(refusal.to_string(), *words);
    }
}

/// "row table (place 0) or row rule": no section is to blame for the table.
#[test]
fn words_of_the_whole_table() {
    let words = Answer::BadSection(0).to_string();
    assert_eq!(
        words,
        "the section header table, or section 0, breaks a rule"
    );
}

const HEADER: &str = include_str!("../../../include/aktinoph.h");

/// Name, number and comment of each line `NAME = NUMBER, /* COMMENT */`.
fn enumerators() -> Vec<(&'static str, u32, &'static str)> {
    let lines = HEADER.lines().filter_map(|line| line.split_once(" = "));
    let parts = |(name, rest): (&'static str, &'static str)| {
        let (number, comment) = rest.split_once("/*").expect("a comment");
        let number = number.trim().trim_end_matches(',');
        let comment = comment.trim_end().strip_suffix("*/").expect("its end");
        let number = number.parse().expect("a number");
        (name.trim(), number, comment.trim())
    };
    lines.map(parts).collect()
}

/// The header has these names and numbers and no others, and explains each.
#[test]
fn header_names_and_numbers() {
    let given: Vec<_> = enumerators().iter().map(|line| (line.0, line.1)).collect();
    let (answers, reasons) = given.split_at(ANSWERS.len());
    assert_eq!(answers, ANSWERS.map(|row| (row.0, row.2)));
    assert_eq!(reasons, REASONS.map(|row| (row.0, row.2)));
    for (name, _, comment) in enumerators() {
        assert!(!comment.is_empty(), "{name}");
    }
}

/// The number that the header defines by this name, once.
fn defined(name: &str) -> usize {
    let lines = HEADER
        .lines()
        .filter_map(|line| line.strip_prefix("#define "));
    let numbers = lines.filter_map(|line| line.strip_prefix(name)?.strip_prefix(' '));
    let numbers: Vec<&str> = numbers.collect();
    assert_eq!(numbers.len(), 1, "{name}");
    numbers[0].parse().expect("a number")
}

/// "count n ...; 16 entries of start u32 and length u32 ...; count k"
#[test]
fn bytes_before_the_old_bytes() {
    assert_eq!(LEDGER_HEAD, 136);
    assert_eq!(defined("AKTINOPH_LEDGER_HEAD"), LEDGER_HEAD);
    assert_eq!(defined("AKTINOPH_STACK"), STACK);
}

/// The header's kinds of calls are those that a list has.
#[test]
fn kinds_of_calls() {
    let mut calls = Calls::new();
    calls.fit(&[], &[]);
    assert_eq!(calls.as_bytes()[4..8], [1, 0, 0, 0]);
    assert_eq!(defined("AKTINOPH_CALL_FIT"), 1);
    let mut calls = Calls::new();
    calls.take_back();
    assert_eq!(calls.as_bytes()[4..8], [2, 0, 0, 0]);
    assert_eq!(defined("AKTINOPH_CALL_TAKE_BACK"), 2);
}

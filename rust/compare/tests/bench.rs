//! Document 01's "Bench numbers" and "Errors we have met" through the static
//! library, in both classes, and the numbers of Tickets 3 and 1. Bit 0 of e_flags
//! is set, as Ticket 5 asks for, but where a test says that it is clear.

use compare::call::{Command, Library, Outcome};
use testing::build::{
    journal, object, order, Class, Fit, Relocation, Section, Symbol, GLOBAL, RVC, WEAK,
};
use testing::damage::Input;
use testing::{Numbers, DONE};

fn run(input: &Input) -> Outcome {
    let outcome = Library::new().compare(input, Command::Fit);
    outcome.unwrap_or_else(|wrong| panic!("{wrong}"))
}

/// The answer in the fit's own class.
fn answer_of_one(fit: &Fit) -> Numbers {
    run(&Input::from(fit)).answer
}

/// The answer, which is the same in both classes.
fn answer(fit: &Fit) -> Numbers {
    let [first, second] = Class::ALL.map(|class| answer_of_one(&fit.clone().of(class)));
    assert_eq!(first, second, "class 1 and class 2");
    first
}

/// What a done fit lays, which is the same in both classes.
fn laid(fit: &Fit) -> String {
    let [first, second] = Class::ALL.map(|class| laid_of_one(&fit.clone().of(class)));
    assert_eq!(first, second, "class 1 and class 2");
    first
}

/// The bytes laid for section 1 of a done fit, in hexadecimal.
fn laid_of_one(fit: &Fit) -> String {
    let outcome = run(&Input::from(fit));
    assert_eq!(outcome.answer, DONE);
    let start = (fit.placements[0].1 - fit.base) as usize;
    let bytes = &outcome.image[start..start + fit.sections[1].bytes.len()];
    bytes.iter().map(|byte| format!("{byte:02x}")).collect()
}

/// One relocation of this type at the section's start, towards a target.
fn one(kind: u32, bytes: &[u8], address: u64, target: u64) -> Fit {
    let list = [Relocation::new(0, kind, 1, 0)];
    Fit::code(address, bytes, &[Symbol::absolute(target)], &list)
}

fn laid_word(kind: u32, word: u32, target: u64) -> u32 {
    number(&laid(&one(kind, &word.to_le_bytes(), 0x1000, target)))
}

/// The number of four bytes in hexadecimal.
fn number(digits: &str) -> u32 {
    u32::from_str_radix(digits, 16)
        .expect("four bytes")
        .swap_bytes()
}

#[test]
fn halves() {
    let (lui, addi) = (|t| laid_word(26, 0x537, t), |t| laid_word(27, 0x50513, t));
    assert_eq!(
        (lui(0x7FFF_F7FF), addi(0x7FFF_F7FF)),
        (0x7FFF_F537, 0x7FF5_0513)
    );
    assert_eq!(addi(0x7FFF_F800), 0x8005_0513);
    // In class 2 this is the first address that the halves do not reach.
    let last = one(26, &[0x37, 0x05, 0, 0], 0x1000, 0x7FFF_F800);
    assert_eq!(number(&laid_of_one(&last)), 0x8000_0537);
    assert_eq!(answer_of_one(&last.of(Class::Elf64)), (13, 0, 0));
    assert_eq!(
        (lui(0x1234_5FFF), addi(0x1234_5FFF)),
        (0x1234_6537, 0xFFF5_0513)
    );
}

#[test]
fn call() {
    let before = 0x0000_80E7_0000_0097_u64.to_le_bytes();
    assert_eq!(laid(&one(18, &before, 0x1000, 0x2800)), "97200000e7800080");
}

#[test]
fn jal() {
    assert_eq!(laid_word(17, 0xEF, 0x1008), 0x0080_00EF);
    let to = |distance: u64| one(17, &[0xEF, 0, 0, 0], 0x1000, 0x1000 + distance);
    assert_eq!(answer(&to(1_048_576)), (13, 0, 0));
}

#[test]
fn jal_1048574_with_bit_0_set() {
    let fit = one(17, &[0xEF, 0, 0, 0], 0x1000, 0x1000 + 1_048_574);
    assert_eq!(laid(&fit.clone().with_flags(RVC)), "eff0ff7f");
    assert_eq!(answer(&fit.with_flags(0)), (13, 0, 0), "clear");
}

#[test]
fn branch() {
    assert_eq!(laid_word(16, 0x63, 0x1000 - 4), 0xFE00_0EE3);
    let to = |distance: u64| one(16, &[0x63, 0, 0, 0], 0x1000, 0x1000 + distance);
    assert_eq!(answer(&to(4_096)), (13, 0, 0));
}

#[test]
fn branch_4094_with_bit_0_set() {
    let fit = one(16, &[0x63, 0, 0, 0], 0x1000, 0x1000 + 4_094);
    assert_eq!(laid(&fit.clone().with_flags(RVC)), "e30f007e");
    assert_eq!(answer(&fit.with_flags(0)), (13, 0, 0), "clear");
}

#[test]
fn compressed_with_bit_0_set() {
    let jump = one(45, &[0x01, 0xA0], 0x1000, 0x1000 - 2).with_flags(RVC);
    assert_eq!(laid(&jump), "fdbf");
    assert_eq!(answer(&jump.with_flags(0)), (9, 0, 0), "clear");
    let branch = one(44, &[0x01, 0xC1], 0x1000, 0x1000 + 8).with_flags(RVC);
    assert_eq!(laid(&branch), "01c5");
    assert_eq!(answer(&branch.with_flags(0)), (9, 0, 0), "clear");
}

/// With the bit clear: multiples of 4, and two bytes beside each.
#[test]
fn with_bit_0_clear() {
    let call = 0x0000_80E7_0000_0097_u64.to_le_bytes();
    let rows: [(u32, &[u8], i64, &str); 6] = [
        (16, &[0x63, 0, 0, 0], -4, "e30e00fe"),
        (16, &[0x63, 0, 0, 0], 4_092, "e30e007e"),
        (17, &[0xEF, 0, 0, 0], 8, "ef008000"),
        (17, &[0xEF, 0, 0, 0], 1_048_572, "eff0df7f"),
        (18, &call, 0x1800, "97200000e7800080"),
        (19, &call, -4, "97000000e780c0ff"),
    ];
    for (kind, bytes, distance, after) in rows {
        let to = |distance| {
            let target = 0x20_0000_u64.wrapping_add_signed(distance);
            one(kind, bytes, 0x20_0000, target).with_flags(0)
        };
        assert_eq!(laid(&to(distance)), after, "type {kind} over {distance}");
        assert_eq!(answer(&to(distance - 2)), (13, 0, 0), "type {kind}");
        assert_eq!(answer(&to(distance + 2)), (13, 0, 0), "type {kind}");
    }
}

#[test]
fn add8_and_sub6() {
    assert_eq!(laid(&one(33, &[0xF0], 0x1000, 0x20)), "10");
    assert_eq!(laid(&one(52, &[0xC1], 0x1000, 2)), "ff");
}

#[test]
fn align() {
    let at = |address| Fit::code(address, &[0; 8], &[], &[Relocation::new(0, 43, 0, 6)]);
    assert_eq!(answer(&at(0x1002)), DONE);
    assert_eq!(answer(&at(0x1000)), (14, 0, 0));
}

/// The bench order, and the same for an object of class 2.
const ORDERS: [(Class, &[u8]); 2] = [
    (
        Class::Elf32,
        &[
            1, 0, 0, 0, 0, 0, 0, 0x20, 1, 0, 0, 0, 1, 0, 0, 0, 8, 0, 0, 0x20, 0, 0, 0, 0,
        ],
    ),
    (
        Class::Elf64,
        &[
            1, 0, 0, 0, 0, 0, 0, 0x20, 0, 0, 0, 0, 1, 0, 0, 0, 1, 0, 0, 0, 8, 0, 0, 0x20, 0, 0, 0,
            0, 0, 0, 0, 0,
        ],
    ),
];

#[test]
fn order_and_ledger_bytes() {
    for (class, bytes) in ORDERS {
        assert_eq!(order(class, 0x2000_0000, &[(1, 0x2000_0008)], &[]), bytes);
        let sections = [Section::default(), Section::loaded(4, &[1, 2, 3, 4])];
        let mut image = vec![0; 16];
        image[8..12].copy_from_slice(&[0xAA, 0xBB, 0xCC, 0xDD]);
        let outcome = run(&Input {
            object: object(class, &sections),
            order: bytes.to_vec(),
            image,
            journal: journal(4),
        });
        let mut expected = vec![1, 0, 0, 0, 8, 0, 0, 0, 4, 0, 0, 0];
        expected.extend([0; 120]);
        expected.extend([4, 0, 0, 0, 0xAA, 0xBB, 0xCC, 0xDD]);
        assert_eq!(outcome.answer, DONE);
        assert_eq!(outcome.journal, expected);
        assert_eq!(
            outcome.image,
            [0, 0, 0, 0, 0, 0, 0, 0, 1, 2, 3, 4, 0, 0, 0, 0]
        );
    }
}

fn code(words: &[u32]) -> Vec<u8> {
    words.iter().flat_map(|word| word.to_le_bytes()).collect()
}

/// "High half cut instead of rounded: T 0x12345FFF lands 4,096 low."
#[test]
fn high_half_rounded() {
    let symbols = [Symbol::absolute(0x1234_5FFF)];
    let list = [Relocation::new(0, 26, 1, 0), Relocation::new(4, 27, 1, 0)];
    let fit = Fit::code(0x1000, &code(&[0x537, 0x50513]), &symbols, &list);
    // 12346537 and FFF50513, in file byte order.
    assert_eq!(laid(&fit), "376534121305f5ff");
}

/// "PCREL_LO12 worked out from its own P."
#[test]
fn low_half_from_the_pairs_place() {
    let symbols = [Symbol::absolute(0x1000 + 0x7FF), Symbol::new(0, 1, 0)];
    let list = [Relocation::new(0, 23, 1, 0), Relocation::new(8, 24, 2, 0)];
    let fit = Fit::code(0x1000, &code(&[0x517, 0x13, 0x50513]), &symbols, &list);
    assert_eq!(laid(&fit), "17050000130000001305f57f");
}

/// "An unnamed strong symbol taken as 0."
#[test]
fn unnamed_strong_symbol() {
    let undefined = |info| {
        let list = [Relocation::new(0, 1, 1, 0)];
        Fit::code(0x1000, &[0; 4], &[Symbol::new(info, 0, 0)], &list)
    };
    assert_eq!(answer(&undefined(GLOBAL)), (10, 0, 5));
    assert_eq!(answer(&undefined(WEAK)), DONE);
}

/// "ADD32 and SUB32 at one offset both started from the object's V."
#[test]
fn stacked_from_what_the_first_left() {
    let symbols = [Symbol::absolute(0x500), Symbol::absolute(0x300)];
    let list = [Relocation::new(0, 35, 1, 0), Relocation::new(0, 39, 2, 0)];
    let fit = Fit::code(0x1000, &[7, 0, 0, 0], &symbols, &list);
    assert_eq!(laid(&fit), "07020000");
}

/// What is laid for a jump across the top of memory, or "13", the same in both
/// classes. Both places are so many bytes above 0 or below it.
fn across(kind: u32, bytes: &[u8], from: i64, to: i64) -> String {
    let [first, second] = Class::ALL.map(|class| {
        let [from, to] = [from, to].map(|place| i128::from(place).rem_euclid(class.address_end()));
        let mut fit = one(kind, bytes, from as u64, to as u64).of(class);
        fit.image.truncate(64 + bytes.len());
        match answer_of_one(&fit) {
            (13, 0, 0) => "13".into(),
            _ => laid_of_one(&fit),
        }
    });
    assert_eq!(first, second, "class 1 and class 2");
    first
}

/// Ticket 3: "a JAL at 0xFFFFFFF0 to 0x10 has distance 32 and is valid". The
/// others, each in both directions, as far as they go and one step more.
#[test]
fn across_the_top() {
    let jal = |from, to| across(17, &[0xEF, 0, 0, 0], from, to);
    assert_eq!(jal(-0x10, 0x10), "ef000002");
    assert_eq!(jal(-0x10, 1_048_574 - 0x10), "eff0ff7f");
    assert_eq!(jal(-0x10, 1_048_576 - 0x10), "13");
    assert_eq!(jal(0, -1_048_576), "ef000080");
    assert_eq!(jal(0, -1_048_578), "13");
    let branch = |from, to| across(16, &[0x63, 0, 0, 0], from, to);
    assert_eq!(branch(4, -4), "e30c00fe");
    assert_eq!(branch(4, 4 - 4_096), "63000080");
    assert_eq!(branch(4, 4 - 4_098), "13");
    assert_eq!(branch(-4, 4_094 - 4), "e30f007e");
    assert_eq!(branch(-4, 4_096 - 4), "13");
    let jump = |from, to| across(45, &[0x01, 0xA0], from, to);
    assert_eq!(jump(-2, 2), "11a0");
    assert_eq!(jump(0, -2), "fdbf");
    assert_eq!(jump(0, -2_048), "01b0");
    assert_eq!(jump(0, -2_050), "13");
    let short = |from, to| across(44, &[0x01, 0xC1], from, to);
    assert_eq!(short(-2, 6), "01c5");
    assert_eq!(short(-2, 254 - 2), "7dcd");
    assert_eq!(short(-2, 256 - 2), "13");
}

/// Ticket 1: "lies in -2,147,485,696..2,147,481,599, else 13", both ends and one
/// step past each.
#[test]
fn ends_of_the_halves() {
    let place: u64 = 0x8000_0000_0000_1000;
    let over = |distance| {
        let target = place.wrapping_add_signed(distance);
        one(23, &[0x17, 0x05, 0, 0], place, target).of(Class::Elf64)
    };
    assert_eq!(answer_of_one(&over(-2_147_485_697)), (13, 0, 0));
    assert_eq!(number(&laid_of_one(&over(-2_147_485_696))), 0x8000_0517);
    assert_eq!(number(&laid_of_one(&over(2_147_481_599))), 0x7FFF_F517);
    assert_eq!(answer_of_one(&over(2_147_481_600)), (13, 0, 0));
}

/// Type 2 with T above 2^63.
#[test]
fn word_64() {
    let fit = one(2, &[0; 8], 0x1000, 0xFEDC_BA98_7654_3210);
    let laid = laid_of_one(&fit.clone().of(Class::Elf64));
    assert_eq!(laid, "1032547698badcfe");
    assert_eq!(answer_of_one(&fit), (9, 0, 0));
}

/// addiw a0, a0, 0.
#[test]
fn addiw() {
    let fit = one(27, &[0x1B, 0x05, 0x05, 0], 0x1000, 0x1234_5FFF);
    let laid = laid_of_one(&fit.clone().of(Class::Elf64));
    assert_eq!(number(&laid), 0xFFF5_051B);
    assert_eq!(answer_of_one(&fit), (11, 0, 0));
}

/// C.JAL's number is C.ADDIW in class 2.
#[test]
fn compressed_jal() {
    let fit = one(45, &[0x01, 0x20], 0x1000, 0x1000 - 2);
    assert_eq!(laid_of_one(&fit), "fd3f");
    assert_eq!(answer_of_one(&fit.of(Class::Elf64)), (11, 0, 0));
}

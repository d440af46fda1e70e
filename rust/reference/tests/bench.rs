//! Document 01's "Bench numbers" and "Errors we have met": each number through
//! the field functions, and each that is about a fit through `install` too, in
//! both classes. Then the numbers of Ticket 3, for jumps across the top of
//! memory, and those of Ticket 1, for class 2. Bit 0 of e_flags is set, as Ticket
//! 5 asks for, but where a test says that it is clear.

use reference::fields::{high_half, insert, low_half, Field, B, CB, CJ, I, J, U};
use reference::numbers::number_from;
use reference::order::{Order, Placement};
use reference::{install, numbers::Address, Answer};
use testing::build::{journal, object, order, Class, Fit, Relocation, Section, Symbol, RVC};
use testing::DONE;

const HI20: u32 = 26;
const LO12_I: u32 = 27;
const CALL: u32 = 18;
const JAL: u32 = 17;
const BRANCH: u32 = 16;
const RVC_JUMP: u32 = 45;
const RVC_BRANCH: u32 = 44;
const ADD8: u32 = 33;
const ADD32: u32 = 35;
const SUB32: u32 = 39;
const SUB6: u32 = 52;
const ALIGN: u32 = 43;
const PCREL_HI20: u32 = 23;
const PCREL_LO12_I: u32 = 24;

/// A fit of one relocation at the section's start against an absolute symbol.
fn one(kind: u32, bytes: &[u8], address: u64, target: u64) -> Fit {
    let list = [Relocation::new(0, kind, 1, 0)];
    Fit::code(address, bytes, &[Symbol::absolute(target)], &list)
}

fn word(number: u32) -> [u8; 4] {
    number.to_le_bytes()
}

fn laid_word(fit: &Fit) -> u64 {
    number_from(&fit.laid_of_both())
}

#[test]
fn halves() {
    assert_eq!(high_half(0x7FFF_F7FF), 0x7FFFF);
    assert_eq!(low_half(0x7FFF_F7FF), 2_047);
    assert_eq!(high_half(0x7FFF_F800), 0x80000);
    assert_eq!(low_half(0x7FFF_F800), -2_048);
    let lui = |t| one(HI20, &word(0x537), 0x1000, t);
    let addi = |t| laid_word(&one(LO12_I, &word(0x50513), 0x1000, t));
    assert_eq!(laid_word(&lui(0x7FFF_F7FF)), 0x7FFF_F537);
    assert_eq!(addi(0x7FFF_F7FF), 0x7FF5_0513);
    assert_eq!(number_from(&lui(0x7FFF_F800).laid()), 0x8000_0537);
    assert_eq!(addi(0x7FFF_F800), 0x8005_0513);
    // In class 2 this is the first address that the halves do not reach.
    assert_eq!(lui(0x7FFF_F800).of(Class::Elf64).answer(), (13, 0, 0));
}

#[test]
fn lui_and_addi() {
    let t = 0x1234_5FFF;
    assert_eq!(insert(U, 0x537, 4_096 * high_half(t)), 0x1234_6537);
    assert_eq!(insert(I, 0x50513, low_half(t)), 0xFFF5_0513);
    let fit = one(HI20, &word(0x537), 0x1000, t as u64);
    assert_eq!(laid_word(&fit), 0x1234_6537);
    let fit = one(LO12_I, &word(0x50513), 0x1000, t as u64);
    assert_eq!(laid_word(&fit), 0xFFF5_0513);
}

#[test]
fn call() {
    let before = 0x0000_80E7_0000_0097;
    let after = 0x8000_80E7_0000_2097;
    assert_eq!(Field::UThenI.put(before, 0x2800 - 0x1000), after);
    let to = |target| one(CALL, &before.to_le_bytes(), 0x1000, target);
    assert_eq!(laid_word(&to(0x2800)), after);
    assert_eq!(laid_word(&to(0x2800).with_flags(0)), after, "bit 0 clear");
    assert_eq!(to(0x2802).answer_of_both(), DONE);
    assert_eq!(to(0x2802).with_flags(0).answer_of_both(), (13, 0, 0));
}

#[test]
fn jal() {
    assert_eq!(insert(J, 0xEF, 8), 0x0080_00EF);
    let to = |distance: u64| one(JAL, &word(0xEF), 0x1000, 0x1000 + distance);
    assert_eq!(laid_word(&to(8)), 0x0080_00EF);
    assert_eq!(laid_word(&to(8).with_flags(0)), 0x0080_00EF);
    assert_eq!(to(1_048_576).answer_of_both(), (13, 0, 0));
    assert_eq!(to(1_048_576).with_flags(0).answer_of_both(), (13, 0, 0));
}

#[test]
fn jal_1048574_with_bit_0_set() {
    let fit = one(JAL, &word(0xEF), 0x1000, 0x1000 + 1_048_574);
    assert_eq!(fit.clone().with_flags(RVC).answer_of_both(), DONE);
    assert_eq!(laid_word(&fit.clone().with_flags(RVC)), 0x7FFF_F0EF);
    assert_eq!(fit.with_flags(0).answer_of_both(), (13, 0, 0), "clear");
}

#[test]
fn branch() {
    assert_eq!(insert(B, 0x63, -4), 0xFE00_0EE3);
    let to = |target| one(BRANCH, &word(0x63), 0x1000, target);
    assert_eq!(laid_word(&to(0x1000 - 4)), 0xFE00_0EE3);
    assert_eq!(laid_word(&to(0x1000 - 4).with_flags(0)), 0xFE00_0EE3);
    assert_eq!(to(0x1000 + 4_096).answer_of_both(), (13, 0, 0));
    assert_eq!(
        to(0x1000 + 4_096).with_flags(0).answer_of_both(),
        (13, 0, 0)
    );
}

#[test]
fn branch_4094_with_bit_0_set() {
    let fit = one(BRANCH, &word(0x63), 0x1000, 0x1000 + 4_094);
    assert_eq!(fit.clone().with_flags(RVC).answer_of_both(), DONE);
    assert_eq!(laid_word(&fit.clone().with_flags(RVC)), 0x7E00_0FE3);
    assert_eq!(fit.with_flags(0).answer_of_both(), (13, 0, 0), "clear");
}

#[test]
fn compressed_with_bit_0_set() {
    assert_eq!(insert(CJ, 0xA001, -2), 0xBFFD);
    assert_eq!(insert(CB, 0xC101, 8), 0xC501);
    let fit = one(RVC_JUMP, &[0x01, 0xA0], 0x1000, 0x1000 - 2).with_flags(RVC);
    assert_eq!(laid_word(&fit), 0xBFFD);
    assert_eq!(fit.with_flags(0).answer_of_both(), (9, 0, 0), "clear");
    let fit = one(RVC_BRANCH, &[0x01, 0xC1], 0x1000, 0x1000 + 8).with_flags(RVC);
    assert_eq!(laid_word(&fit), 0xC501);
    assert_eq!(fit.with_flags(0).answer_of_both(), (9, 0, 0), "clear");
}

#[test]
fn add8_and_sub6() {
    let (byte, six) = (Field::Data { bits: 8 }, Field::Data { bits: 6 });
    assert_eq!(byte.put(0xF0, byte.present(0xF0) + 0x20), 0x10);
    assert_eq!(six.put(0xC1, six.present(0xC1) - 2), 0xFF);
    assert_eq!(one(ADD8, &[0xF0], 0x1000, 0x20).laid_of_both(), [0x10]);
    assert_eq!(one(SUB6, &[0xC1], 0x1000, 2).laid_of_both(), [0xFF]);
}

#[test]
fn align() {
    let list = [Relocation::new(0, ALIGN, 0, 6)];
    assert_eq!(
        Fit::code(0x1002, &[0; 8], &[], &list).answer_of_both(),
        DONE,
        "P 0x1002"
    );
    assert_eq!(
        Fit::code(0x1000, &[0; 8], &[], &list).answer_of_both(),
        (14, 0, 0),
        "P 0x1000"
    );
}

const ORDER: [u8; 24] = [
    0x01, 0, 0, 0, 0, 0, 0, 0x20, 0x01, 0, 0, 0, 0x01, 0, 0, 0, 0x08, 0, 0, 0x20, 0, 0, 0, 0,
];

/// The same for an object of class 2.
const ORDER_64: [u8; 32] = [
    0x01, 0, 0, 0, 0, 0, 0, 0x20, 0, 0, 0, 0, 0x01, 0, 0, 0, 0x01, 0, 0, 0, 0x08, 0, 0, 0x20, 0, 0,
    0, 0, 0, 0, 0, 0,
];

#[test]
fn order_bytes() {
    let orders: [(Class, &[u8]); 2] = [(Class::Elf32, &ORDER), (Class::Elf64, &ORDER_64)];
    for (class, bytes) in orders {
        assert_eq!(order(class, 0x2000_0000, &[(1, 0x2000_0008)], &[]), bytes);
        let read = Order::read(bytes, class).expect("well formed");
        let placement = Placement {
            section: 1,
            address: Address(0x2000_0008),
        };
        assert_eq!(read.base, Address(0x2000_0000));
        assert_eq!(read.placements, [placement]);
        assert_eq!(read.external_values, []);
    }
}

#[test]
fn ledger_bytes() {
    let sections = [Section::default(), Section::loaded(4, &[1, 2, 3, 4])];
    let orders: [(Class, &[u8]); 2] = [(Class::Elf32, &ORDER), (Class::Elf64, &ORDER_64)];
    for (class, order) in orders {
        let mut image = vec![0; 16];
        image[8..12].copy_from_slice(&[0xAA, 0xBB, 0xCC, 0xDD]);
        let mut ledger = journal(4);
        let answer = install(&object(class, &sections), order, &mut image, &mut ledger);
        assert_eq!(answer, Answer::DONE);
        let mut expected = vec![1, 0, 0, 0, 8, 0, 0, 0, 4, 0, 0, 0];
        expected.extend([0; 120]);
        expected.extend([4, 0, 0, 0, 0xAA, 0xBB, 0xCC, 0xDD]);
        assert_eq!(ledger, expected);
        assert_eq!(image[8..12], [1, 2, 3, 4]);
    }
}

/// "High half cut instead of rounded: T 0x12345FFF lands 4,096 low."
#[test]
fn error_high_half_cut() {
    let code = [word(0x537), word(0x50513)].concat();
    let list = [
        Relocation::new(0, HI20, 1, 0),
        Relocation::new(4, LO12_I, 1, 0),
    ];
    let symbols = [Symbol::absolute(0x1234_5FFF)];
    let laid = Fit::code(0x1000, &code, &symbols, &list).laid_of_both();
    assert_eq!(number_from(&laid[0..4]), 0x1234_6537);
    assert_eq!(number_from(&laid[4..8]), 0xFFF5_0513);
}

/// "PCREL_LO12 worked out from its own P."
#[test]
fn error_low_half_from_its_own_place() {
    let code = [word(0x517), word(0x13), word(0x50513)].concat();
    let symbols = [Symbol::absolute(0x1000 + 0x7FF), Symbol::new(0, 1, 0)];
    let list = [
        Relocation::new(0, PCREL_HI20, 1, 0),
        Relocation::new(8, PCREL_LO12_I, 2, 0),
    ];
    let laid = Fit::code(0x1000, &code, &symbols, &list).laid_of_both();
    assert_eq!(number_from(&laid[0..4]), 0x517);
    assert_eq!(number_from(&laid[8..12]), 0x7FF5_0513);
}

/// "An unnamed strong symbol taken as 0."
#[test]
fn error_unnamed_strong_symbol() {
    let undefined = |info| {
        let list = [Relocation::new(0, 1, 1, 0)];
        Fit::code(0x1000, &[0; 4], &[Symbol::new(info, 0, 0)], &list)
    };
    assert_eq!(
        undefined(testing::build::GLOBAL).answer_of_both(),
        (10, 0, 5)
    );
    assert_eq!(undefined(testing::build::WEAK).answer_of_both(), DONE);
}

/// "ADD32 and SUB32 at one offset both started from the object's V."
#[test]
fn error_stacked_from_the_objects_value() {
    let symbols = [Symbol::absolute(0x500), Symbol::absolute(0x300)];
    let list = [
        Relocation::new(0, ADD32, 1, 0),
        Relocation::new(0, SUB32, 2, 0),
    ];
    let fit = Fit::code(0x1000, &word(7), &symbols, &list);
    assert_eq!(laid_word(&fit), 0x207);
}

/// Number, place and the bytes after a jump across the top of memory, in each
/// class. Both places are so many bytes above 0 or below it.
fn across(kind: u32, width: usize, before: u32, from: i64, to: i64) -> [(u32, u32, u64); 2] {
    across_with(RVC, kind, width, before, from, to)
}

/// The same with these e_flags.
fn across_with(
    flags: u32,
    kind: u32,
    width: usize,
    before: u32,
    from: i64,
    to: i64,
) -> [(u32, u32, u64); 2] {
    Class::ALL.map(|class| {
        let [from, to] = [from, to].map(|place| i128::from(place).rem_euclid(class.address_end()));
        let bytes = &word(before)[..width];
        let fit = one(kind, bytes, from as u64, to as u64).of(class);
        let mut fit = fit.with_flags(flags);
        fit.image.truncate(64 + width);
        match fit.answer() {
            DONE => (0, 0, number_from(&fit.laid())),
            (number, place, _) => (number, place, u64::from(before)),
        }
    })
}

/// Ticket 3: "a JAL at 0xFFFFFFF0 to 0x10 has distance 32 and is valid"; the
/// farthest in both directions, and one step more.
#[test]
fn jal_across_the_top() {
    let over = |from, to| across(JAL, 4, 0xEF, from, to);
    assert_eq!(over(-0x10, 0x10), [(0, 0, 0x0200_00EF); 2]);
    assert_eq!(over(-0x10, 1_048_574 - 0x10), [(0, 0, 0x7FFF_F0EF); 2]);
    assert_eq!(over(-0x10, 1_048_576 - 0x10), [(13, 0, 0xEF); 2]);
    assert_eq!(over(4, 4 - 1_048_576), [(0, 0, 0x8000_00EF); 2]);
    assert_eq!(over(4, 4 - 1_048_578), [(13, 0, 0xEF); 2]);
    assert_eq!(over(-0x10, 0x11), [(13, 0, 0xEF); 2], "odd");
}

/// The same of a branch, with one at 4 to 0xFFFFFFFC: -8.
#[test]
fn branch_across_the_top() {
    let over = |from, to| across(BRANCH, 4, 0x63, from, to);
    assert_eq!(over(4, -4), [(0, 0, 0xFE00_0CE3); 2]);
    assert_eq!(over(-4, 4), [(0, 0, 0x0000_0463); 2]);
    assert_eq!(over(-4, 4_094 - 4), [(0, 0, 0x7E00_0FE3); 2]);
    assert_eq!(over(-4, 4_096 - 4), [(13, 0, 0x63); 2]);
    assert_eq!(over(4, 4 - 4_096), [(0, 0, 0x8000_0063); 2]);
    assert_eq!(over(4, 4 - 4_098), [(13, 0, 0x63); 2]);
}

/// The same of compressed ones, at the last two bytes and at the first.
#[test]
fn compressed_across_the_top() {
    let jump = |from, to| across(RVC_JUMP, 2, 0xA001, from, to);
    assert_eq!(jump(-2, 2), [(0, 0, 0xA011); 2]);
    assert_eq!(jump(0, -2), [(0, 0, 0xBFFD); 2]);
    assert_eq!(jump(-2, 2_046 - 2), [(0, 0, 0xAFFD); 2]);
    assert_eq!(jump(-2, 2_048 - 2), [(13, 0, 0xA001); 2]);
    assert_eq!(jump(0, -2_048), [(0, 0, 0xB001); 2]);
    assert_eq!(jump(0, -2_050), [(13, 0, 0xA001); 2]);
    let branch = |from, to| across(RVC_BRANCH, 2, 0xC101, from, to);
    assert_eq!(branch(-2, 6), [(0, 0, 0xC501); 2]);
    assert_eq!(branch(0, -8), [(0, 0, 0xDD65); 2]);
    assert_eq!(branch(-2, 254 - 2), [(0, 0, 0xCD7D); 2]);
    assert_eq!(branch(-2, 256 - 2), [(13, 0, 0xC101); 2]);
    assert_eq!(branch(0, -256), [(0, 0, 0xD101); 2]);
    assert_eq!(branch(0, -258), [(13, 0, 0xC101); 2]);
}

/// With the bit clear: "T - P reduced" that is no multiple of 4 gives 13.
#[test]
fn across_the_top_with_bit_0_clear() {
    let jal = |from, to| across_with(0, JAL, 4, 0xEF, from, to);
    assert_eq!(jal(-0x10, 0x10), [(0, 0, 0x0200_00EF); 2]);
    assert_eq!(jal(-0x10, 0x12), [(13, 0, 0xEF); 2]);
    assert_eq!(jal(-0x10, 1_048_572 - 0x10), [(0, 0, 0x7FDF_F0EF); 2]);
    assert_eq!(jal(-0x10, 1_048_574 - 0x10), [(13, 0, 0xEF); 2]);
    assert_eq!(jal(4, 4 - 1_048_576), [(0, 0, 0x8000_00EF); 2]);
    let branch = |from, to| across_with(0, BRANCH, 4, 0x63, from, to);
    assert_eq!(branch(4, -4), [(0, 0, 0xFE00_0CE3); 2]);
    assert_eq!(branch(4, -6), [(13, 0, 0x63); 2]);
    assert_eq!(branch(-6, -2), [(0, 0, 0x0000_0263); 2]);
    assert_eq!(branch(-4, 4_094 - 4), [(13, 0, 0x63); 2]);
    let short = |from, to| across_with(0, RVC_JUMP, 2, 0xA001, from, to);
    assert_eq!(short(-2, 2), [(9, 0, 0xA001); 2]);
}

/// A fit of class 2.
fn one_64(kind: u32, bytes: &[u8], address: u64, target: u64) -> Fit {
    one(kind, bytes, address, target).of(Class::Elf64)
}

/// Ticket 1: "lies in -2,147,485,696..2,147,481,599, else 13", both ends and one
/// step past each.
#[test]
fn ends_of_the_halves() {
    let place: u64 = 0x8000_0000_0000_1000;
    let over = |distance| {
        let target = place.wrapping_add_signed(distance);
        one_64(PCREL_HI20, &word(0x517), place, target)
    };
    assert_eq!(over(-2_147_485_697).answer(), (13, 0, 0));
    assert_eq!(number_from(&over(-2_147_485_696).laid()), 0x8000_0517);
    assert_eq!(number_from(&over(2_147_481_599).laid()), 0x7FFF_F517);
    assert_eq!(over(2_147_481_600).answer(), (13, 0, 0));
    let lui = |t| one_64(HI20, &word(0x537), place, t);
    assert_eq!(lui(0xFFFF_FFFF_7FFF_F7FF).answer(), (13, 0, 0));
    assert_eq!(number_from(&lui(0xFFFF_FFFF_7FFF_F800).laid()), 0x8000_0537);
    assert_eq!(number_from(&lui(0x7FFF_F7FF).laid()), 0x7FFF_F537);
    assert_eq!(lui(0x7FFF_F800).answer(), (13, 0, 0));
}

/// The same of a call, whose distance is even: one step is two bytes.
#[test]
fn ends_of_a_call() {
    let before = 0x0000_80E7_0000_0097_u64.to_le_bytes();
    let over = |distance| one_64(CALL, &before, 0, 0_u64.wrapping_add_signed(distance));
    assert_eq!(over(-2_147_485_698).answer(), (13, 0, 0));
    let laid = number_from(&over(-2_147_485_696).laid());
    assert_eq!(laid, 0x8000_80E7_8000_0097);
    let laid = number_from(&over(2_147_481_598).laid());
    assert_eq!(laid, 0x7FE0_80E7_7FFF_F097);
    assert_eq!(over(2_147_481_599).answer(), (13, 0, 0), "odd");
    assert_eq!(over(2_147_481_600).answer(), (13, 0, 0));
}

/// Type 2 with T above 2^63.
#[test]
fn word_64() {
    let t = 0xFEDC_BA98_7654_3210;
    assert_eq!(number_from(&one_64(2, &[0; 8], 0x1000, t).laid()), t);
    assert_eq!(one(2, &[0; 8], 0x1000, t).answer(), (9, 0, 0));
}

/// addiw a0, a0, 0.
#[test]
fn addiw() {
    let addiw = |t| one(LO12_I, &word(0x5051B), 0x1000, t);
    let fit = addiw(0x1234_5FFF);
    assert_eq!(
        number_from(&fit.clone().of(Class::Elf64).laid()),
        0xFFF5_051B
    );
    assert_eq!(fit.answer(), (11, 0, 0));
}

/// C.JAL's number is C.ADDIW in class 2.
#[test]
fn compressed_jal() {
    let jal = one(RVC_JUMP, &[0x01, 0x20], 0x1000, 0x1000 - 2);
    assert_eq!(number_from(&jal.laid()), 0x3FFD);
    assert_eq!(jal.clone().of(Class::Elf64).answer(), (11, 0, 0));
    assert_eq!(jal.with_flags(0).answer_of_both(), (9, 0, 0), "bit 0 clear");
}

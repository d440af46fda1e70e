//! Halves and fields, read back by the manual, and the arithmetic of the data
//! types.

use reference::fields::{
    extract, high_half, insert, low_half, Field, Layout, B, CB, CJ, I, J, S, U,
};
use reference::numbers::number_from;
use testing::build::*;
use testing::random::Random;

const TOP: i128 = 1 << 32;

/// "the high half and the low half laid for one address or distance add up to
/// it modulo 2^32"
#[test]
fn halves_add_up() {
    let random = &mut Random::new(1);
    let edges = (-4_100..4_100).chain((0..4_100).map(|below| TOP - 1 - below));
    let any = (0..200_000).map(|_| i128::from(random.u32()) - i128::from(random.u32()));
    for x in edges.chain(any.collect::<Vec<_>>()) {
        let (high, low) = (high_half(x), low_half(x));
        assert!((0..1 << 20).contains(&high), "{x}");
        assert!((-2_048..=2_047).contains(&low), "{x}");
        assert_eq!((4_096 * high + low - x).rem_euclid(TOP), 0, "{x}");
        let call = Field::UThenI.put(0x0000_80E7_0000_0097, x);
        let read = extract(U, call % (1 << 32)) + extract(I, call >> 32);
        assert_eq!((read - x).rem_euclid(TOP), 0, "{x}");
    }
}

/// In class 2 an instruction extends its number's sign to 64 bits: where the
/// halves reach x, they add up to it modulo 2^64, and where they do not, to
/// something else.
#[test]
fn halves_add_up_in_class_2() {
    const LOWEST: i128 = -(1 << 31) - 2_048;
    const HIGHEST: i128 = (1 << 31) - 2_049;
    let random = &mut Random::new(1);
    let ends = [LOWEST, HIGHEST, 0, 1 << 31, 1 << 32, 1 << 63];
    let edges = ends.iter().flat_map(|end| end - 4_100..end + 4_100);
    let any = (0..200_000).map(|_| i128::from(random.u64() as i64 >> 20));
    let any: Vec<i128> = any.collect();
    for x in edges.chain(any) {
        let call = Field::UThenI.put(0x0000_80E7_0000_0097, x);
        let read = extract(U, call % (1 << 32)) + extract(I, call >> 32);
        let adds_up = (read - x).rem_euclid(1 << 64) == 0;
        assert_eq!(adds_up, Class::Elf64.halves_reach(x), "{x}");
        assert_eq!(adds_up, (LOWEST..=HIGHEST).contains(&x), "{x}");
    }
}

/// Every number of a field comes back, and no bit outside the field moves.
fn comes_back(layout: Layout, mask: u64, numbers: impl Iterator<Item = i128>) {
    let random = &mut Random::new(2);
    for number in numbers {
        let word = random.u64() % (mask.next_power_of_two());
        let put = insert(layout, word, number);
        assert_eq!(extract(layout, put), number);
        assert_eq!(put & !mask, word & !mask, "{number}");
    }
}

#[test]
fn fields_come_back() {
    comes_back(I, 0xFFF0_0000, -2_048..=2_047);
    comes_back(S, 0xFE00_0F80, -2_048..=2_047);
    comes_back(B, 0xFE00_0F80, (-4_096..=4_094).step_by(2));
    comes_back(J, 0xFFFF_F000, (-1_048_576..=1_048_574).step_by(2));
    comes_back(CB, 0x1C7C, (-256..=254).step_by(2));
    comes_back(CJ, 0x1FFC, (-2_048..=2_046).step_by(2));
    comes_back(U, 0xFFFF_F000, (-(1 << 31)..1 << 31).step_by(4_096));
}

/// The bits of a number as the manual prints them, "12|10:5", high to low.
fn printed_bits(print: &str) -> Vec<u32> {
    let number = |word: &str| word.parse::<u32>().expect("a bit");
    let run = |word: &str| match word.split_once(':') {
        Some((high, low)) => (number(low)..=number(high)).rev().collect(),
        None => vec![number(word)],
    };
    print.split('|').flat_map(run).collect()
}

/// The manual's figures: what stands from which bit of the instruction down.
#[test]
fn bit_orders_are_the_manuals() {
    let figures: [(Layout, &[(u32, &str)]); 7] = [
        (U, &[(31, "31:12")]),
        (I, &[(31, "11:0")]),
        (S, &[(31, "11:5"), (11, "4:0")]),
        (B, &[(31, "12|10:5"), (11, "4:1|11")]),
        (J, &[(31, "20|10:1|11|19:12")]),
        (CB, &[(12, "8|4:3"), (6, "7:6|2:1|5")]),
        (CJ, &[(12, "11|4|9:8|10|6|7|3:1|5")]),
    ];
    for (layout, parts) in figures {
        let mut all = 0;
        for (top, print) in parts {
            for (below, bit) in printed_bits(print).into_iter().enumerate() {
                let expected = 1_u64 << (*top as usize - below);
                assert_eq!(insert(layout, 0, 1 << bit), expected, "bit {bit}");
                all |= expected;
            }
        }
        assert_eq!(insert(layout, 0, -1), all, "no other bit");
    }
}

/// Encodings that the assembler prints: jal, beq, c.j, c.beqz, sw, lui.
#[test]
fn known_encodings() {
    assert_eq!(insert(J, 0x0000_006F, -2), 0xFFFF_F06F);
    assert_eq!(insert(J, 0x0000_00EF, 0x800), 0x0010_00EF);
    assert_eq!(insert(J, 0x0000_00EF, 0x1000), 0x0000_10EF);
    assert_eq!(insert(B, 0x00B5_0063, 0x800), 0x00B5_00E3);
    assert_eq!(insert(B, 0x00B5_0063, 16), 0x00B5_0863);
    assert_eq!(insert(CJ, 0xA001, 0x20), 0xA005);
    assert_eq!(insert(CJ, 0xA001, 2), 0xA009);
    assert_eq!(insert(CB, 0xC101, 0x20), 0xC105);
    assert_eq!(insert(CB, 0xC101, 2), 0xC109);
    assert_eq!(insert(S, 0x00A5_A023, -4), 0xFEA5_AE23);
    assert_eq!(insert(U, 0x0000_0537, 0x1234_5000), 0x1234_5537);
}

/// One data relocation on eight bytes of V against an absolute symbol.
fn data_of(class: Class, kind: u32, present: u64, symbol: u64, addend: i64) -> u64 {
    let list = [Relocation::new(0, kind, 1, addend)];
    let fit = Fit::code(
        0x1000,
        &present.to_le_bytes(),
        &[Symbol::absolute(symbol)],
        &list,
    );
    number_from(&fit.of(class).laid())
}

/// The same in both classes.
fn data(kind: u32, present: u64, symbol: u64, addend: i64) -> u64 {
    let [first, second] = Class::ALL.map(|class| data_of(class, kind, present, symbol, addend));
    assert_eq!(first, second, "class 1 and class 2");
    first
}

const V: u64 = 0xFFFF_FFFF_FFFF_FFFF;

/// "wraps at the width of the field", and the bytes behind it stay.
#[test]
fn add_and_sub_wrap_at_their_width() {
    assert_eq!(data(33, V, 2, 0), 0xFFFF_FFFF_FFFF_FF01);
    assert_eq!(data(34, V, 2, 0), 0xFFFF_FFFF_FFFF_0001);
    assert_eq!(data(35, V, 2, 0), 0xFFFF_FFFF_0000_0001);
    assert_eq!(data(36, V, 2, 0), 1);
    assert_eq!(data(37, 0x100, 2, 0), 0x1FE);
    assert_eq!(data(38, 0x1_0000, 2, 0), 0x1_FFFE);
    assert_eq!(data(39, 1 << 32, 2, 0), 0x1_FFFF_FFFE);
    assert_eq!(data(40, 0, 2, 0), V - 1);
}

/// "S + A not reduced first"
#[test]
fn wide_add_and_sub_take_the_whole_sum() {
    assert_eq!(data(36, 0, 0xFFFF_FFFF, 1), 1 << 32);
    assert_eq!(data(36, 0, 0, -1), V);
    assert_eq!(data(36, 5, 2, -3), 4);
    assert_eq!(data(40, 0, 0, -1), 1);
    assert_eq!(data(40, 0, 0xFFFF_FFFF, 0x7FFF_FFFF), V - 0x1_7FFF_FFFD);
    assert_eq!(data(40, V, 0xFFFF_FFFF, 1), V - (1 << 32));
}

/// In class 2 S and A have 64 bits, and the sum wraps at the field's width.
#[test]
fn sums_in_class_2() {
    const S: u64 = 0xFEDC_BA98_7654_3210;
    let data = |kind, present, symbol, addend| data_of(Class::Elf64, kind, present, symbol, addend);
    assert_eq!(data(36, 1, S, 0), S + 1);
    assert_eq!(data(36, V, V, i64::MAX), i64::MAX as u64 - 2);
    assert_eq!(data(36, 0, V, 1), 0);
    assert_eq!(data(40, 0, S, 0), 0_u64.wrapping_sub(S));
    assert_eq!(data(40, 0, V, i64::MIN), (1 << 63) + 1);
    assert_eq!(data(35, 0, S, 0), 0x7654_3210);
    assert_eq!(data(39, 1 << 32, S, 0), 0x1_89AB_CDF0);
    assert_eq!(data(34, 0, S, 0), 0x3210);
    assert_eq!(data(33, 0xFF00, S, 1), 0xFF11);
    assert_eq!(data(52, 0xC0, S, 0), 0xF0);
    assert_eq!(data(53, 0x80, S, 0), 0x90);
    assert_eq!(data(54, 0, S, 0), 0x10);
    assert_eq!(data(55, 0, S, 0), 0x3210);
    assert_eq!(data(56, V, S, 0), 0xFFFF_FFFF_7654_3210);
}

/// "types 1 and 57 still write the low 32 bits", and type 2 writes T.
#[test]
fn words_in_class_2() {
    const S: u64 = 0xFEDC_BA98_7654_3210;
    let data = |kind, symbol, addend| data_of(Class::Elf64, kind, 0, symbol, addend);
    assert_eq!(data(1, S, 0), 0x7654_3210);
    assert_eq!(data(57, S, 0), 0x7654_2210);
    assert_eq!(data(57, 0, 0), 0xFFFF_F000);
    assert_eq!(data(2, S, 0), S);
    assert_eq!(data(2, S, -1), S - 1);
    assert_eq!(data(2, V, 1), 0);
}

#[test]
fn sets_are_cut() {
    assert_eq!(data(54, V, 0x1_2345, 0), 0xFFFF_FFFF_FFFF_FF45);
    assert_eq!(data(55, V, 0x12_3456, 0), 0xFFFF_FFFF_FFFF_3456);
    assert_eq!(data(56, V, 0x1234_5678, 0), 0xFFFF_FFFF_1234_5678);
    assert_eq!(data(56, V, 0, -2), 0xFFFF_FFFF_FFFF_FFFE);
}

/// "low six bits, top two kept"
#[test]
fn six_bits() {
    for byte in 0..=255 {
        assert_eq!(data(53, byte, 0x7F, 0), byte / 64 * 64 + 63);
        assert_eq!(data(53, byte, 0x40, 0), byte / 64 * 64);
        assert_eq!(data(52, byte, 1, 0), byte / 64 * 64 + (byte + 63) % 64);
        assert_eq!(data(52, byte, 0, -1), byte / 64 * 64 + (byte + 1) % 64);
    }
}

#[test]
fn words() {
    assert_eq!(data(1, V, 5, -6), V);
    assert_eq!(data(1, V, 5, 6), 0xFFFF_FFFF_0000_000B);
    assert_eq!(data(57, V, 0x1004, 0), 0xFFFF_FFFF_0000_0004);
    assert_eq!(data(57, 0, 0xFFF, 0), 0xFFFF_FFFF);
}

/// Stacked records start from what the one before left.
#[test]
fn stacked_records() {
    let symbols = [Symbol::absolute(0x10), Symbol::absolute(0x21)];
    let stacked = |kinds: &[(u32, u32)], byte: u8| {
        let record = |(kind, symbol): &(u32, u32)| Relocation::new(0, *kind, *symbol, 0);
        let list: Vec<Relocation> = kinds.iter().map(record).collect();
        Fit::code(0x1000, &[byte], &symbols, &list).laid_of_both()[0]
    };
    assert_eq!(stacked(&[(33, 1), (37, 2)], 0x80), 0x6F);
    assert_eq!(stacked(&[(54, 1), (37, 2)], 0x80), 0xEF);
    assert_eq!(stacked(&[(37, 2), (54, 1)], 0x80), 0x10);
    assert_eq!(stacked(&[(53, 1), (52, 2)], 0x80), 0xAF);
}

/// The halves of each type: HI20, LO12_I, LO12_S, PCREL_HI20.
#[test]
fn halves_of_each_type() {
    let laid = |kind, word: u32, target| data(kind, u64::from(word), target, 0) as u32;
    assert_eq!(laid(26, 0x0000_0537, 0x0000_0800), 0x0000_1537);
    let top_32 = data_of(Class::Elf32, 26, 0x537, 0xFFFF_F800, 0);
    let top_64 = data_of(Class::Elf64, 26, 0x537, 0_u64.wrapping_sub(2_048), 0);
    assert_eq!([top_32, top_64], [0x537; 2]);
    assert_eq!(laid(27, 0x0005_0513, 0xFFFF_F800), 0x8005_0513);
    assert_eq!(laid(28, 0x00A5_A023, 0x0000_07FF), 0x7EA5_AFA3);
    assert_eq!(laid(23, 0xABCD_E517, 0x0000_07FF), 0xFFFF_F517);
    assert_eq!(laid(23, 0xABCD_E517, 0x0000_0800), 0x0000_0517);
    assert_eq!(laid(23, 0xABCD_E517, 0x0000_1000), 0x0000_0517);
}

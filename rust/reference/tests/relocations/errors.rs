//! Document 01's "Errors we have met" and its bench numbers, with those of Ticket
//! 3, each stated by hand. Bit 0 of e_flags is set, as Ticket 5 asks for, but where a
//! name says that it is clear.

use crate::fits::*;
use crate::{Case, DONE};
use testing::build::*;

fn word(name: &str, kind: u32, before: u32, target: u64, after: u32) -> Case {
    let fit = one(kind, &words(&[before]), PLACE, target);
    Case::done(name, &fit, &words(&[after]))
}

fn short(name: &str, kind: u32, before: u16, target: u64, after: u16) -> Case {
    let fit = one(kind, &before.to_le_bytes(), PLACE, target);
    Case::done(name, &fit, &after.to_le_bytes())
}

fn halves() -> Vec<Case> {
    let (lui, addi) = (0x0000_0537, 0x0005_0513);
    vec![
        word("lui 0x7FFFF7FF", HI20, lui, 0x7FFF_F7FF, 0x7FFF_F537),
        word("addi 0x7FFFF7FF", LO12_I, addi, 0x7FFF_F7FF, 0x7FF5_0513),
        word("lui 0x7FFFF800", HI20, lui, 0x7FFF_F800, 0x8000_0537).only_in_class_1(),
        word("addi 0x7FFFF800", LO12_I, addi, 0x7FFF_F800, 0x8005_0513),
        word("addi 0x12345FFF", LO12_I, addi, 0x1234_5FFF, 0xFFF5_0513),
    ]
}

fn jumps() -> Vec<Case> {
    let to = |name: &str, kind, word, target, answer| {
        Case::new(name, &one(kind, &words(&[word]), PLACE, target), answer)
    };
    let call = one(CALL, &words(&[0x97, 0x80E7]), PLACE, 0x2800);
    vec![
        Case::done("call", &call, &words(&[0x0000_2097, 0x8000_80E7])),
        word("jal 8", JAL, 0xEF, PLACE + 8, 0x0080_00EF),
        to(
            "jal 1,048,574, bit 0 set",
            JAL,
            0xEF,
            PLACE + 1_048_574,
            DONE,
        ),
        to("jal 1,048,576", JAL, 0xEF, PLACE + 1_048_576, (13, 0, 0)),
        word("branch -4", BRANCH, 0x63, PLACE - 4, 0xFE00_0EE3),
        to("branch 4,094, bit 0 set", BRANCH, 0x63, PLACE + 4_094, DONE),
        to("branch 4,096", BRANCH, 0x63, PLACE + 4_096, (13, 0, 0)),
        short("c.j -2, bit 0 set", RVC_JUMP, 0xA001, PLACE - 2, 0xBFFD),
        short("c.beqz 8, bit 0 set", RVC_BRANCH, 0xC101, PLACE + 8, 0xC501),
    ]
}

/// Ticket 5: with bit 0 clear, 1,048,574 and 4,094 give 13, and the short ones 9. A
/// call and the jumps over multiples of 4 are laid as with it set.
fn jumps_without_compressed() -> Vec<Case> {
    let clear = |kind, bytes: &[u8], target| one(kind, bytes, PLACE, target).with_flags(0);
    let (jal, branch) = (words(&[0xEF]), words(&[0x63]));
    let call = clear(CALL, &words(&[0x97, 0x80E7]), 0x2800);
    let jal_8 = clear(JAL, &jal, PLACE + 8);
    let branch_4 = clear(BRANCH, &branch, PLACE - 4);
    let long_jal = clear(JAL, &jal, PLACE + 1_048_574);
    let long_branch = clear(BRANCH, &branch, PLACE + 4_094);
    let jump = clear(RVC_JUMP, &[0x01, 0xA0], PLACE - 2);
    let short = clear(RVC_BRANCH, &[0x01, 0xC1], PLACE + 8);
    let call_after = words(&[0x0000_2097, 0x8000_80E7]);
    vec![
        Case::done("call, bit 0 clear", &call, &call_after),
        Case::done("jal 8, bit 0 clear", &jal_8, &words(&[0x0080_00EF])),
        Case::done("branch -4, bit 0 clear", &branch_4, &words(&[0xFE00_0EE3])),
        Case::new("jal 1,048,574, bit 0 clear", &long_jal, (13, 0, 0)),
        Case::new("branch 4,094, bit 0 clear", &long_branch, (13, 0, 0)),
        Case::new("c.j -2, bit 0 clear", &jump, (9, 0, 0)),
        Case::new("c.beqz 8, bit 0 clear", &short, (9, 0, 0)),
    ]
}

/// Ticket 3: "a JAL at 0xFFFFFFF0 to 0x10 has distance 32 and is valid"; a branch
/// the other way; and both in class 2, with a short jump.
fn across_the_top() -> Vec<Case> {
    const TOP: u64 = u64::MAX;
    let (jal, branch) = (words(&[0xEF]), words(&[0x63]));
    let (jal_after, branch_after) = (words(&[0x0200_00EF]), words(&[0xFE00_0CE3]));
    let forward = one(JAL, &jal, 0xFFFF_FFF0, 0x10);
    let back = one(BRANCH, &branch, 4, 0xFFFF_FFFC);
    let forward_64 = one_64(JAL, &jal, TOP - 15, 0x10);
    let back_64 = one_64(BRANCH, &branch, 4, TOP - 3);
    let short_64 = one_64(RVC_JUMP, &[0x01, 0xA0], TOP - 1, 2);
    let cases = [
        Case::done("jal across the top", &forward, &jal_after),
        Case::done("branch across the top", &back, &branch_after),
        Case::done("jal across 2^64", &forward_64, &jal_after),
        Case::done("branch across 2^64", &back_64, &branch_after),
        Case::done("c.j across 2^64", &short_64, &[0x11, 0xA0]),
    ];
    cases.map(Case::only_in_class_1).into()
}

fn data_and_padding() -> Vec<Case> {
    let padding = [Relocation::new(0, ALIGN, 0, 6)];
    let align = |address| at(address, &[0; 8], &[], &padding);
    vec![
        Case::done("ADD8", &one(ADD8, &[0xF0], PLACE, 0x20), &[0x10]),
        Case::done("SUB6", &one(SUB6, &[0xC1], PLACE, 2), &[0xFF]),
        Case::done("ALIGN at 0x1002", &align(0x1002), &[0; 8]),
        Case::new("ALIGN at 0x1000", &align(0x1000), (14, 0, 0)),
    ]
}

/// "High half cut instead of rounded: T 0x12345FFF lands 4,096 low."
fn high_half_is_rounded() -> Case {
    word(
        "high half is rounded",
        HI20,
        0x537,
        0x1234_5FFF,
        0x1234_6537,
    )
}

/// "PCREL_LO12 worked out from its own P."
fn low_half_is_the_pairs() -> Case {
    let code = words(&[0x0000_0517, 0x0000_0013, 0x0005_0513]);
    let symbols = [Symbol::absolute(PLACE + 0x7FF), Symbol::new(0, 1, 0)];
    let list = [
        Relocation::new(0, PCREL_HI20, 1, 0),
        Relocation::new(8, PCREL_LO12_I, 2, 0),
    ];
    let after = words(&[0x0000_0517, 0x0000_0013, 0x7FF5_0513]);
    let fit = at(PLACE, &code, &symbols, &list);
    Case::done("low half is the pair's", &fit, &after)
}

/// "An unnamed strong symbol taken as 0."
fn strong_symbol_without_value() -> Vec<Case> {
    let undefined = |info| {
        let list = [Relocation::new(0, WORD, 1, 0x44)];
        at(PLACE, &[9; 4], &[Symbol::new(info, 0, 0)], &list)
    };
    let weak = undefined(WEAK);
    vec![
        Case::new("strong without a value", &undefined(GLOBAL), (10, 0, 5)),
        Case::done("weak without a value", &weak, &words(&[0x44])),
    ]
}

/// "ADD32 and SUB32 at one offset both started from the object's V."
fn second_starts_where_first_ended() -> Case {
    let symbols = [Symbol::absolute(0x500), Symbol::absolute(0x300)];
    let list = [
        Relocation::new(0, ADD32, 1, 0),
        Relocation::new(0, SUB32, 2, 0),
    ];
    let fit = at(PLACE, &words(&[7]), &symbols, &list);
    Case::done("ADD32 and SUB32 at one offset", &fit, &words(&[0x207]))
}

pub fn cases() -> Vec<Case> {
    let mut cases = vec![
        high_half_is_rounded(),
        low_half_is_the_pairs(),
        second_starts_where_first_ended(),
    ];
    cases.extend(strong_symbol_without_value());
    cases.extend(halves());
    cases.extend(jumps());
    cases.extend(jumps_without_compressed());
    cases.extend(across_the_top());
    cases.extend(data_and_padding());
    cases
}

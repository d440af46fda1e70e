//! High and low halves where they round and wrap around, with the bytes.

use crate::fits::*;
use crate::Case;
use testing::build::*;

/// A number, its high half, and its low half in twelve bits.
const HALVES: [(u64, u32, u32); 20] = [
    (0, 0, 0),
    (1, 0, 1),
    (0x7FE, 0, 0x7FE),
    (0x7FF, 0, 0x7FF),
    (0x800, 1, 0x800),
    (0x801, 1, 0x801),
    (0xFFF, 1, 0xFFF),
    (0x1000, 1, 0),
    (0x17FF, 1, 0x7FF),
    (0x1800, 2, 0x800),
    (0x1234_5FFF, 0x1_2346, 0xFFF),
    (0x7FFF_F7FF, 0x7_FFFF, 0x7FF),
    (0x7FFF_F800, 0x8_0000, 0x800),
    (0x7FFF_FFFF, 0x8_0000, 0xFFF),
    (0x8000_0000, 0x8_0000, 0),
    (0xFFFF_EFFF, 0xF_FFFF, 0xFFF),
    (0xFFFF_F000, 0xF_FFFF, 0),
    (0xFFFF_F7FF, 0xF_FFFF, 0x7FF),
    (0xFFFF_F800, 0, 0x800),
    (0xFFFF_FFFF, 0, 0xFFF),
];

fn u_type(word: u32, high: u32) -> u32 {
    word % 4_096 + 4_096 * high
}

fn i_type(word: u32, low: u32) -> u32 {
    word % (1 << 20) + (low << 20)
}

fn s_type(word: u32, low: u32) -> u32 {
    let outside = word & 0x01FF_F07F;
    outside + ((low / 32) << 25) + ((low % 32) << 7)
}

/// lui, addi and sw with HI20 and LO12; auipc, lw and fsw with PCREL_HI20 and
/// PCREL_LO12.
const CODE: [u32; 6] = [
    0xABCD_E537,
    0xABC5_0513,
    0xABA5_A923,
    0xABCD_E517,
    0xABC5_2583,
    0xABA5_A927,
];

/// T is `t`, and T - P of the pair is `distance`. Both symbols are reached with
/// an addend.
fn both(t: u64, distance: u64, place: u64, addend: i64) -> Fit {
    let less = |target: u64| target.wrapping_sub(addend as u64);
    let symbols = [
        Symbol::absolute(less(t)),
        Symbol::absolute(less(place.wrapping_add(12).wrapping_add(distance))),
        Symbol::new(0, 1, 12),
    ];
    let list = [
        Relocation::new(0, HI20, 1, addend),
        Relocation::new(4, LO12_I, 1, addend),
        Relocation::new(8, LO12_S, 1, addend),
        Relocation::new(12, PCREL_HI20, 2, addend),
        Relocation::new(16, PCREL_LO12_I, 3, 0),
        Relocation::new(20, PCREL_LO12_S, 3, 0),
    ];
    at(place, &words(&CODE), &symbols, &list)
}

/// The number of 64 bits with the same halves that both lead to: instructions
/// of class 2 extend the sign of each half.
fn extended(number: u64) -> u64 {
    match number {
        0x7FFF_F800.. => number | 0xFFFF_FFFF_0000_0000,
        _ => number,
    }
}

fn case(class: Class, which: usize, place: u64, addend: i64) -> Case {
    let (t, high, low) = HALVES[which];
    let (distance, far_high, far_low) = HALVES[(which + 7) % HALVES.len()];
    let after = [
        u_type(CODE[0], high),
        i_type(CODE[1], low),
        s_type(CODE[2], low),
        u_type(CODE[3], far_high),
        i_type(CODE[4], far_low),
        s_type(CODE[5], far_low),
    ];
    let name = format!("halves of {t:x} and {distance:x} from {place:x} on, {class:?}");
    let fit = match class {
        Class::Elf32 => both(t, distance, place, addend),
        Class::Elf64 => both(extended(t), extended(distance), place, addend),
    };
    Case::done(name, &fit.of(class), &words(&after)).only_in_class_1()
}

/// "Bits outside the field stay": one instruction over zeros and over ones.
fn outside() -> Vec<Case> {
    let rows = [
        ("HI20 into ones", HI20, 0xFFFF_FFB7, 0x0000_0FB7),
        ("LO12_I into ones", LO12_I, 0xFFFF_FF83, 0x000F_FF83),
        ("LO12_S into ones", LO12_S, 0xFFFF_FFA3, 0x01FF_F023),
        ("HI20 into zeros", HI20, 0x37, 0x37),
        ("LO12_I into zeros", LO12_I, 0x13, 0x13),
        ("LO12_S into zeros", LO12_S, 0x23, 0x23),
    ];
    let case = |(name, kind, before, after): (&str, u32, u32, u32)| {
        let fit = one(kind, &words(&[before]), PLACE, 0);
        Case::done(name, &fit, &words(&[after]))
    };
    rows.map(case).into_iter().collect()
}

pub fn cases() -> Vec<Case> {
    let mut cases = outside();
    for class in Class::ALL {
        for which in 0..HALVES.len() {
            cases.push(case(class, which, PLACE, 0));
            cases.push(case(class, which, 0xFFFF_FFE0, 1));
            cases.push(case(class, which, 0, -2_049));
            cases.push(case(class, which, 0x7FFF_FFF0, i64::from(i32::MIN)));
        }
    }
    cases
}

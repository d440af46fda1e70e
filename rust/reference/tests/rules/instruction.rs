//! Instruction forms (check 11) and distances (check 13).

use reference::fields::{extract, Layout, B, CB, CJ, J};
use reference::numbers::number_from;
use testing::build::*;
use testing::{Numbers, DONE};

const PLACE: u64 = 0x1000;

/// One relocation with distance 0 on this word; symbol 2 is a label with a
/// pair behind the word.
fn on(class: Class, kind: u32, word: u64, width: usize) -> Numbers {
    let mut code = word.to_le_bytes()[..width].to_vec();
    code.extend(0x17_u32.to_le_bytes());
    let end = width as u64;
    let symbol = if matches!(kind, 24 | 25) { 2 } else { 1 };
    let symbols = [Symbol::absolute(PLACE), Symbol::new(0, 1, end)];
    let list = [
        Relocation::new(0, kind, symbol, 0),
        Relocation::new(end, 23, 1, 0),
    ];
    let fit = Fit::code(PLACE, &code, &symbols, &list);
    fit.of(class).answer()
}

/// Every opcode with every funct3, against the ones that the type takes.
fn opcodes(class: Class, kind: u32, taken: impl Fn(u64, u64) -> bool) {
    for opcode in 0..128 {
        for funct3 in 0..8 {
            let expected = if taken(opcode, funct3) {
                DONE
            } else {
                (11, 0, 0)
            };
            let word = 0xABCD_8F80 | (funct3 << 12) | opcode;
            let answer = on(class, kind, word, 4);
            assert_eq!(answer, expected, "{class:?}, {kind}: {word:X}");
        }
    }
}

#[test]
fn opcodes_of_each_type() {
    for class in Class::ALL {
        opcodes(class, 26, |opcode, _| opcode == 0x37);
        opcodes(class, 23, |opcode, _| opcode == 0x17);
        opcodes(class, 17, |opcode, _| opcode == 0x6F);
        opcodes(class, 16, |opcode, _| opcode == 0x63);
        for kind in [24, 27] {
            opcodes(class, kind, |opcode, funct3| match opcode {
                0x03 | 0x07 => true,
                0x13 | 0x67 => funct3 == 0,
                // "In class 2, opcode 0x1B with funct3 0 joins the _I forms"
                0x1B => class == Class::Elf64 && funct3 == 0,
                _ => false,
            });
        }
        for kind in [25, 28] {
            opcodes(class, kind, |opcode, _| matches!(opcode, 0x23 | 0x27));
        }
    }
}

#[test]
fn compressed_forms() {
    for class in Class::ALL {
        for half in (0..=0xFFFF).filter(|half| half % 64 < 4) {
            let (quadrant, funct3) = (half % 4, half / 0x2000);
            let branch = quadrant == 1 && (funct3 == 6 || funct3 == 7);
            // In class 2, "RVC_JUMP funct3 1 gives 11"
            let is_jump = funct3 == 5 || (funct3 == 1 && class == Class::Elf32);
            let expected = |holds| if holds { DONE } else { (11, 0, 0) };
            let (on_44, on_45) = (on(class, 44, half, 2), on(class, 45, half, 2));
            assert_eq!(on_44, expected(branch), "{class:?}, {half:X}");
            assert_eq!(
                on_45,
                expected(quadrant == 1 && is_jump),
                "{class:?}, {half:X}"
            );
        }
    }
}

#[test]
fn call_forms() {
    let call = |rd: u64, rs1: u64, first: u64, second: u64| {
        let auipc = 0xABCD_E000 | (rd << 7) | first;
        let jalr = 0xABC0_0F80 | (rs1 << 15) | second;
        let word = auipc | (jalr << 32);
        let answer = on(Class::Elf32, 18, word, 8);
        assert_eq!(answer, on(Class::Elf32, 19, word, 8));
        assert_eq!(answer, on(Class::Elf64, 18, word, 8));
        assert_eq!(answer, on(Class::Elf64, 19, word, 8));
        answer
    };
    for register in 0..32 {
        let expected = if register == 0 { (11, 0, 0) } else { DONE };
        assert_eq!(call(register, register, 0x17, 0x67), expected);
        assert_eq!(call(register, (register + 1) % 32, 0x17, 0x67), (11, 0, 0));
    }
    assert_eq!(call(1, 1, 0x37, 0x67), (11, 0, 0));
    assert_eq!(call(1, 1, 0x17, 0x13), (11, 0, 0));
    assert_eq!(call(1, 1, 0x17, 0x1067), (11, 0, 0), "funct3 1");
}

/// A relocation at a place whose T is given.
fn at(kind: u32, word: u64, place: u64, target: u64) -> Fit {
    let list = [Relocation::new(0, kind, 1, 0)];
    let symbols = [Symbol::absolute(target), Symbol::new(0, 1, 0)];
    let mut fit = Fit::code(place, &word.to_le_bytes(), &symbols, &list);
    fit.image = vec![0; 72];
    fit.base = place.saturating_sub(64);
    fit
}

/// The answer to it, the same in both classes.
fn towards(kind: u32, word: u64, place: u64, target: u64) -> Numbers {
    at(kind, word, place, target).answer_of_both()
}

const CALL: u64 = 0x0000_80E7_0000_0097;

#[test]
fn instructions_lie_at_even_addresses() {
    let words = [
        (16, 0x63),
        (17, 0x6F),
        (18, CALL),
        (19, CALL),
        (23, 0x17),
        (26, 0x37),
        (27, 0x13),
        (28, 0x23),
        (44, 0xC101),
        (45, 0xA001),
    ];
    for (kind, word) in words {
        assert_eq!(towards(kind, word, 0x1000, 0x1000), DONE, "type {kind}");
        assert_eq!(towards(kind, word, 0x1002, 0x1000), DONE, "type {kind}");
        assert_eq!(
            towards(kind, word, 0x1001, 0x1001),
            (11, 0, 0),
            "type {kind}"
        );
    }
    for kind in [1, 57, 33, 34, 35, 36, 52, 56] {
        assert_eq!(towards(kind, 0, 0x1001, 0x1001), DONE, "data, type {kind}");
    }
}

/// Jumps and branches: type, instruction, its field, and how far that reaches.
const JUMPS: [(u32, u64, Layout, i64); 4] = [
    (16, 0x63, B, 4_096),
    (17, 0x6F, J, 1_048_576),
    (44, 0xC101, CB, 256),
    (45, 0xA001, CJ, 2_048),
];

#[test]
fn distances_at_both_ends() {
    const PLACE: i64 = 0x2000_0000;
    for (kind, word, _, reach) in JUMPS {
        let to = |distance: i64| towards(kind, word, PLACE as u64, (PLACE + distance) as u64);
        assert_eq!(to(-reach), DONE, "type {kind}");
        assert_eq!(to(reach - 2), DONE, "type {kind}");
        for broken in [
            -reach - 2,
            -reach - 1,
            -1,
            1,
            3,
            reach - 1,
            reach,
            reach + 2,
        ] {
            assert_eq!(to(broken), (13, 0, 0), "type {kind}, distance {broken}");
        }
    }
}

/// "T - P reduced to the signed range of the address width": the field reads as
/// this distance, which goes around the end of memory as far as the field reaches.
#[test]
fn distances_across_the_top() {
    for class in Class::ALL {
        let end = class.address_end();
        let last = (end - 8) as u64;
        for (kind, word, field, reach) in JUMPS {
            let over = |place: u64, distance: i64| {
                let target = (i128::from(place) + i128::from(distance)).rem_euclid(end);
                at(kind, word, place, target as u64).of(class)
            };
            for (place, kept, broken) in [
                (last, [8, 10, reach - 2], [9, reach - 1, reach]),
                (0, [-2, -8, -reach], [-1, -reach - 1, -reach - 2]),
            ] {
                for distance in kept {
                    let laid = number_from(&over(place, distance).laid());
                    let read = extract(field, laid);
                    assert_eq!(read, i128::from(distance), "type {kind}, {class:?}");
                }
                for distance in broken {
                    let answer = over(place, distance).answer();
                    assert_eq!(answer, (13, 0, 0), "type {kind}, {distance}, {class:?}");
                }
            }
        }
    }
}

/// What lies in the middle of memory, and half of it away: both ways are too far.
#[test]
fn distances_at_half_the_range() {
    for class in Class::ALL {
        let half = (class.address_end() / 2) as u64;
        for (kind, word, ..) in JUMPS {
            let to = |place, target| at(kind, word, place, target).of(class).answer();
            assert_eq!(to(half - 8, half), DONE, "type {kind}");
            assert_eq!(to(half, half - 8), DONE, "type {kind}");
            for (place, target) in [(0, half), (half, 0), (0, half - 2), (half - 2, 0)] {
                assert_eq!(to(place, target), (13, 0, 0), "type {kind}");
            }
        }
    }
}

/// In class 2 nothing goes around 2^32.
#[test]
fn no_top_at_2_32_in_class_2() {
    for (kind, word, ..) in JUMPS {
        for (place, target) in [(0, 0xFFFF_FFF8), (0xFFFF_FFF8, 0)] {
            let fit = at(kind, word, place, target);
            assert_eq!(fit.answer(), DONE, "type {kind}");
            assert_eq!(fit.of(Class::Elf64).answer(), (13, 0, 0), "type {kind}");
        }
    }
}

#[test]
fn calls_reach_everything_even() {
    for target in [0, 2, 0x7FFF_F7FE, 0x8000_0000, 0xFFFF_FFFE] {
        let to = |kind, word, place, target| at(kind, word, place, target).answer();
        assert_eq!(to(18, CALL, 0x1000, target), DONE);
        assert_eq!(to(19, CALL, 0xFFFF_FFF0, target), DONE);
        assert_eq!(to(18, CALL, 0x1000, target + 1), (13, 0, 0));
        assert_eq!(to(23, 0x17, 0x1000, target + 1), DONE, "PCREL_HI20");
        assert_eq!(to(26, 0x37, 0x1000, target + 1), DONE, "HI20");
    }
}

/// "for 18, 19, 23 and 26 the distance or address, read as a signed 64-bit
/// number, lies in -2,147,485,696..2,147,481,599, else 13"
#[test]
fn halves_reach_so_far_in_class_2() {
    const LOWEST: i64 = -2_147_485_696;
    const HIGHEST: i64 = 2_147_481_599;
    for place in [0, 0x1000, 1 << 31, 1 << 32, 1 << 63, u64::MAX - 15] {
        for (kind, word) in [(18, CALL), (19, CALL), (23, 0x17), (26, 0x37)] {
            let from = if kind == 26 { 0 } else { place };
            let over = |distance: i64| {
                let target = from.wrapping_add_signed(distance);
                at(kind, word, place, target).of(Class::Elf64).answer()
            };
            let is_call = kind < 20;
            let odd = if is_call { (13, 0, 0) } else { DONE };
            let kept = [LOWEST, LOWEST + 2, -2, 0, 2, 2_046, 2_048, HIGHEST - 1];
            for distance in kept {
                assert_eq!(over(distance), DONE, "type {kind}, {distance}");
            }
            for distance in [LOWEST + 1, -1, 1, HIGHEST] {
                assert_eq!(over(distance), odd, "type {kind}, {distance}");
            }
            let far = [
                1 << 31,
                1 << 32,
                -(1 << 32),
                1 << 62,
                i64::MAX - 1,
                i64::MIN,
            ];
            let beside = [LOWEST - 2, LOWEST - 1, HIGHEST + 1, HIGHEST + 3];
            for distance in far.into_iter().chain(beside) {
                assert_eq!(over(distance), (13, 0, 0), "type {kind}, {distance}");
            }
        }
    }
}

/// 1, 2, 24, 25, 27, 28 and 57 have no range of their own.
#[test]
fn other_types_reach_everything_in_class_2() {
    for (kind, word) in [(1, 0), (2, 0), (27, 0x13), (28, 0x23), (57, 0)] {
        for target in [0, 1, 1 << 31, 1 << 32, 1 << 63, u64::MAX] {
            for place in [0x1000, u64::MAX - 15] {
                let fit = at(kind, word, place, target).of(Class::Elf64);
                assert_eq!(fit.answer(), DONE, "type {kind} to {target:#x}");
            }
        }
    }
}

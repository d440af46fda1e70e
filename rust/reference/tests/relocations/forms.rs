//! Check 11: each instruction form with one thing wrong, and odd addresses.

use crate::fits::*;
use crate::{Case, DONE};
use testing::build::*;

/// A relocation of this type with distance 0, at the start of a section; a pair
/// for a PCREL_LO12 stands behind it.
pub fn on(kind: u32, word: u64, width: usize, address: u64) -> Fit {
    let behind = width.next_multiple_of(4);
    let mut code = low_bytes(word, width);
    code.resize(behind, 0);
    code.extend(words(&[0x17]));
    let symbol = if matches!(kind, 24 | 25) { 2 } else { 1 };
    let symbols = [Symbol::absolute(address), Symbol::new(0, 1, behind as u64)];
    let list = [
        Relocation::new(0, kind, symbol, 0),
        Relocation::new(behind as u64, PCREL_HI20, 1, 0),
    ];
    at(address, &code, &symbols, &list)
}

fn case(kind: u32, word: u64, width: usize, is_right: bool) -> Case {
    let answer = if is_right { DONE } else { (11, 0, 0) };
    let name = format!("type {kind} on {word:x}");
    Case::new(name, &on(kind, word, width, PLACE), answer)
}

/// Whether a type takes an opcode with a funct3.
fn takes(kind: u32, opcode: u64, funct3: u64) -> bool {
    match kind {
        BRANCH => opcode == 0x63,
        JAL => opcode == 0x6F,
        PCREL_HI20 => opcode == 0x17,
        HI20 => opcode == 0x37,
        LO12_I | PCREL_LO12_I => match opcode {
            0x03 | 0x07 => true,
            0x13 | 0x67 => funct3 == 0,
            _ => false,
        },
        _ => opcode == 0x23 || opcode == 0x27,
    }
}

/// Each bit of opcode and funct3 turned around, and every opcode of another
/// type.
fn words_of(kind: u32, opcodes: &[u64]) -> Vec<Case> {
    let mut tried = Vec::new();
    for opcode in opcodes {
        tried.push((*opcode, 0));
        tried.extend((0..7).map(|bit| (opcode ^ (1 << bit), 0)));
        tried.extend((1..8).map(|funct3| (*opcode, funct3)));
    }
    let others = [0x03, 0x07, 0x13, 0x17, 0x23, 0x27, 0x37, 0x63, 0x67, 0x6F];
    tried.extend(others.map(|opcode| (opcode, 0)));
    tried.sort_unstable();
    tried.dedup();
    let with = |(opcode, funct3): (u64, u64)| {
        let word = 0xABCD_8F80 | (funct3 << 12) | opcode;
        let case = case(kind, word, 4, takes(kind, opcode, funct3));
        // In class 2, "opcode 0x1B with funct3 0 joins the _I forms".
        match (kind, opcode, funct3) {
            (LO12_I | PCREL_LO12_I, 0x1B, 0) => case.only_in_class_1(),
            _ => case,
        }
    };
    tried.into_iter().map(with).collect()
}

/// "RVC_BRANCH quadrant 1 funct3 6 or 7; RVC_JUMP quadrant 1 funct3 1 or 5"
fn compressed() -> Vec<Case> {
    let mut cases = Vec::new();
    for (kind, taken) in [(RVC_BRANCH, [6, 7]), (RVC_JUMP, [1, 5])] {
        for funct3 in 0..8 {
            for quadrant in 0..4 {
                let word = (funct3 << 13) | 0x0A54 | quadrant;
                let is_right = quadrant == 1 && taken.contains(&funct3);
                let case = case(kind, word, 2, is_right);
                // In class 2, "RVC_JUMP funct3 1 gives 11".
                cases.push(match (kind, funct3) {
                    (RVC_JUMP, 1) => case.only_in_class_1(),
                    _ => case,
                });
            }
        }
    }
    cases
}

/// "CALL 0x17 with rd not 0, then 0x67 with funct3 0 and rs1 equal to that rd"
fn calls(kind: u32) -> Vec<Case> {
    let call = |rd: u64, rs1: u64, first: u64, second: u64, is_right| {
        let auipc = 0xABCD_E000 | (rd << 7) | first;
        let jalr = 0xABC0_0F80 | (rs1 << 15) | second;
        case(kind, auipc | (jalr << 32), 8, is_right)
    };
    let mut cases = vec![
        call(0, 0, 0x17, 0x67, false),
        call(0, 1, 0x17, 0x67, false),
        call(1, 0, 0x17, 0x67, false),
    ];
    for rd in [1, 2, 5, 6, 16, 31] {
        cases.push(call(rd, rd, 0x17, 0x67, true));
        let others = (0..5).map(|bit| rd ^ (1 << bit));
        cases.extend(others.map(|rs1| call(rd, rs1, 0x17, 0x67, false)));
    }
    for bit in 0..7 {
        cases.push(call(1, 1, 0x17 ^ (1 << bit), 0x67, false));
        cases.push(call(1, 1, 0x17, 0x67 ^ (1 << bit), false));
    }
    let funct3 = (1..8).map(|funct3| 0x67 | (funct3 << 12));
    cases.extend(funct3.map(|second| call(1, 1, 0x17, second, false)));
    cases
}

/// "Instruction at an even address": the address counts, and not the offset.
fn addresses() -> Vec<Case> {
    let mut cases = Vec::new();
    for (kind, word, width) in STORING {
        let is_data = word == 0;
        let odd = if is_data { DONE } else { (11, 0, 0) };
        let name = |what: &str| format!("type {kind} {what}");
        let even_fit = on(kind, word, width, 0x1002);
        cases.push(Case::new(name("at 0x1002"), &even_fit, DONE));
        let mut fit = on(kind, word, width, 0x1001);
        // The pair behind it would stand at an odd address too.
        fit.sections[3].relocations_mut().truncate(1);
        cases.push(Case::new(name("at 0x1001"), &fit, odd));
        cases.push(Case::new(
            name("at 1 of 0x1001"),
            &shifted(kind, word, width),
            DONE,
        ));
    }
    cases
}

/// A byte before everything, in a section at an odd address.
fn shifted(kind: u32, word: u64, width: usize) -> Fit {
    let mut fit = on(kind, word, width, 0x1002);
    fit.sections[1].bytes.insert(0, 0x99);
    fit.placements = vec![(1, 0x1001)];
    for relocation in fit.sections[3].relocations_mut() {
        relocation.offset += 1;
    }
    fit.sections[2].symbols_mut()[2].value += 1;
    fit
}

/// An instruction between relocated data: its form is read at its own place.
/// What the data becomes, on either side, would be a branch and no jal.
fn between_data() -> Case {
    let list = [
        Relocation::new(0, SET8, 1, 0),
        Relocation::new(1, SET8, 1, 0),
        Relocation::new(4, JAL, 2, 0),
        Relocation::new(8, WORD, 1, 0),
    ];
    let symbols = [Symbol::absolute(0x63), Symbol::absolute(PLACE + 8)];
    let fit = at(PLACE, &words(&[0, 0x6F, 0]), &symbols, &list);
    let after = words(&[0x6363, 0x0040_006F, 0x63]);
    Case::done("a form between data", &fit, &after)
}

pub fn cases() -> Vec<Case> {
    let mut cases = vec![between_data()];
    cases.extend(words_of(HI20, &[0x37]));
    cases.extend(words_of(PCREL_HI20, &[0x17]));
    cases.extend(words_of(JAL, &[0x6F]));
    cases.extend(words_of(BRANCH, &[0x63]));
    for kind in [LO12_I, PCREL_LO12_I] {
        cases.extend(words_of(kind, &[0x03, 0x07, 0x13, 0x67]));
    }
    for kind in [LO12_S, PCREL_LO12_S] {
        cases.extend(words_of(kind, &[0x23, 0x27]));
    }
    cases.extend(compressed());
    cases.extend(calls(CALL));
    cases.extend(calls(CALL_PLT));
    cases.extend(addresses());
    cases
}

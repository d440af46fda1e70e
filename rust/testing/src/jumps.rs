//! Objects with a compressed jump for each even distance, and what is laid for
//! them.

use crate::build::{journal, object, order, Class, Relocation, Section, Symbol};
use crate::damage::Input;

const RVC_JUMP: u32 = 45;
const ADDRESS: u64 = 0x2000_0000;
/// The bit of e_flags that says that the code has compressed instructions.
const RVC: u8 = 1;

/// The manual's figure of the field, from bit 12 of the instruction down to bit 2:
/// "imm[11|4|9:8|10|6|7|3:1|5]".
const FIGURE: [u32; 11] = [11, 4, 9, 8, 10, 6, 7, 3, 2, 1, 5];

/// The jumps of an object as a call is asked with them, and the bytes that are
/// laid, which are the whole image.
pub struct Jumps {
    pub input: Input,
    pub laid: Vec<u8>,
}

impl Jumps {
    /// That an image holds just what is laid.
    pub fn assert_laid(&self, image: &[u8]) {
        assert_eq!(image.len(), self.laid.len());
        for (number, (bytes, laid)) in image.chunks(2).zip(self.laid.chunks(2)).enumerate() {
            assert_eq!(bytes, laid, "jump {number}");
        }
    }
}

/// C.J with zeros, ones and other bits in its field; class 1 has C.JAL too.
fn instructions(class: Class) -> [u16; 3] {
    match class {
        Class::Elf32 => [0xA001, 0xBFFD, 0x2AA9],
        Class::Elf64 => [0xA001, 0xBFFD, 0xAAA9],
    }
}

/// The instruction with the distance in its field.
fn with_distance(instruction: u16, distance: i64) -> u16 {
    let bits = FIGURE.map(|bit| (distance >> bit & 1) as u16);
    let field = bits.into_iter().fold(0, |field, bit| field << 1 | bit);
    instruction & 0xE003 | field << 2
}

/// Each of the class's instructions with each even distance from -2,048 to 2,046.
/// Where a distance leads to does not matter.
pub fn every_jump(class: Class) -> Jumps {
    let (mut found, mut laid, mut relocations) = (Vec::new(), Vec::new(), Vec::new());
    for instruction in instructions(class) {
        for distance in (-2_048..=2_046).step_by(2) {
            let offset = found.len() as u64;
            let addend = offset as i64 + distance;
            relocations.push(Relocation::new(offset, RVC_JUMP, 1, addend));
            found.extend(instruction.to_le_bytes());
            laid.extend(with_distance(instruction, distance).to_le_bytes());
        }
    }
    let sections = [
        Section::default(),
        Section::loaded(2, &found),
        Section::symbols(&[Symbol::default(), Symbol::new(0, 1, 0)]),
        Section::relocations(1, 2, &relocations),
    ];
    let mut object = object(class, &sections);
    object[flags_at(class)] |= RVC;
    let input = Input {
        object,
        order: order(class, ADDRESS, &[(1, ADDRESS)], &[]),
        image: vec![0x5A; laid.len()],
        journal: journal(laid.len()),
    };
    Jumps { input, laid }
}

/// Where e_flags is in the header.
fn flags_at(class: Class) -> usize {
    match class {
        Class::Elf32 => 36,
        Class::Elf64 => 48,
    }
}

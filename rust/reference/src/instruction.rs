//! The instruction forms that relocation types ask for (check 11), "as found in
//! the object".

use crate::class::Class;
use crate::fields::bits;
use crate::numbers::{number_from, Whole};

/// What must stand at the place of a relocation.
#[derive(Clone, Copy, PartialEq, Eq, Debug)]
pub enum Form {
    /// Data: any bytes at any address.
    Any,
    /// "HI20 opcode 0x37"
    Lui,
    /// "PCREL_HI20 0x17"
    Auipc,
    /// "JAL 0x6F"
    Jal,
    /// "BRANCH 0x63"
    Branch,
    /// "_I 0x03, 0x07, 0x13 or 0x67 (the last two with funct3 0)". "In class 2,
    /// opcode 0x1B with funct3 0 joins the _I forms"
    LowI,
    /// "_S 0x23 or 0x27"
    LowS,
    /// "CALL 0x17 with rd not 0, then 0x67 with funct3 0 and rs1 equal to that
    /// rd"
    Call,
    /// "RVC_BRANCH quadrant 1 funct3 6 or 7"
    CompressedBranch,
    /// "RVC_JUMP quadrant 1 funct3 1 or 5". In class 2, "RVC_JUMP funct3 1 gives
    /// 11"
    CompressedJump,
}

impl Form {
    /// Whether it is a short instruction, of two bytes: "types 44 and 45".
    pub fn is_compressed(self) -> bool {
        matches!(self, Form::CompressedBranch | Form::CompressedJump)
    }

    /// Whether the bytes, as many as the field has, are of this form.
    pub fn matches(self, bytes: &[u8], class: Class) -> bool {
        let is_64 = class == Class::Elf64;
        let word = Whole::from(number_from(bytes));
        match self {
            Form::Any => true,
            Form::Lui => opcode(word) == 0x37,
            Form::Auipc => opcode(word) == 0x17,
            Form::Jal => opcode(word) == 0x6F,
            Form::Branch => opcode(word) == 0x63,
            Form::LowI => match opcode(word) {
                0x03 | 0x07 => true,
                0x13 | 0x67 => funct3(word) == 0,
                0x1B => is_64 && funct3(word) == 0,
                _ => false,
            },
            Form::LowS => matches!(opcode(word), 0x23 | 0x27),
            Form::Call => is_call(bits(word, 31, 0), bits(word, 63, 32)),
            Form::CompressedBranch => quadrant(word) == 1 && matches!(rvc_funct3(word), 6 | 7),
            Form::CompressedJump => match rvc_funct3(word) {
                1 => quadrant(word) == 1 && !is_64,
                5 => quadrant(word) == 1,
                _ => false,
            },
        }
    }
}

fn is_call(first: Whole, second: Whole) -> bool {
    opcode(first) == 0x17
        && rd(first) != 0
        && opcode(second) == 0x67
        && funct3(second) == 0
        && rs1(second) == rd(first)
}

fn opcode(word: Whole) -> Whole {
    bits(word, 6, 0)
}

fn rd(word: Whole) -> Whole {
    bits(word, 11, 7)
}

fn funct3(word: Whole) -> Whole {
    bits(word, 14, 12)
}

fn rs1(word: Whole) -> Whole {
    bits(word, 19, 15)
}

fn quadrant(half: Whole) -> Whole {
    bits(half, 1, 0)
}

fn rvc_funct3(half: Whole) -> Whole {
    bits(half, 15, 13)
}

//! The instruction forms that types ask for (check 11).

use super::class::Class;

/// The forms of instructions, a bit each.
pub mod form {
    pub const LUI: u8 = 1;
    pub const AUIPC: u8 = 1 << 1;
    pub const JAL: u8 = 1 << 2;
    pub const BRANCH: u8 = 1 << 3;
    pub const LOW_I: u8 = 1 << 4;
    pub const LOW_S: u8 = 1 << 5;
    pub const COMPRESSED_BRANCH: u8 = 1 << 6;
    pub const COMPRESSED_JUMP: u8 = 1 << 7;
}

/// The forms of the word whose bits 15 to 12 and 6 to 0 are these.
const fn forms_of(bits: usize, is_64: bool) -> u8 {
    let funct3 = bits >> 7 & 7;
    let of_opcode = match bits & 0x7F {
        0x37 => form::LUI,
        0x17 => form::AUIPC,
        0x6F => form::JAL,
        0x63 => form::BRANCH,
        0x03 | 0x07 => form::LOW_I,
        0x13 | 0x67 if funct3 == 0 => form::LOW_I,
        0x1B if funct3 == 0 && is_64 => form::LOW_I,
        0x23 | 0x27 => form::LOW_S,
        _ => 0,
    };
    let compressed = match (bits & 3, bits >> 8) {
        (1, 6 | 7) => form::COMPRESSED_BRANCH,
        (1, 5) => form::COMPRESSED_JUMP,
        (1, 1) if !is_64 => form::COMPRESSED_JUMP,
        _ => 0,
    };
    of_opcode | compressed
}

const fn all_missing(is_64: bool) -> [u8; 2_048] {
    let mut missing = [0; 2_048];
    let mut bits = 0;
    while bits < 2_048 {
        missing[bits] = !forms_of(bits, is_64);
        bits += 1;
    }
    missing
}

pub static MISSING_FORMS_32: [u8; 2_048] = all_missing(false);
pub static MISSING_FORMS_64: [u8; 2_048] = all_missing(true);

/// Every form that the instruction with these lowest 16 bits does not have.
#[inline(always)]
pub fn missing_forms<C: Class>(half: u16) -> u8 {
    C::MISSING_FORMS[usize::from(half & 0x7F | half >> 5 & 0x780)]
}

/// "CALL 0x17 with rd not 0, then 0x67 with funct3 0 and rs1 equal to that rd"
#[inline(always)]
pub fn is_call(both: u64) -> bool {
    let register = both >> 7 & 31;
    both & 0x707F_0000_007F == 0x67_0000_0017 && register != 0 && both >> 47 & 31 == register
}

//! Relocation types by name, and fits of one section.

use testing::build::*;

pub const NONE: u32 = 0;
pub const WORD: u32 = 1;
pub const BRANCH: u32 = 16;
pub const JAL: u32 = 17;
pub const CALL: u32 = 18;
pub const CALL_PLT: u32 = 19;
pub const PCREL_HI20: u32 = 23;
pub const PCREL_LO12_I: u32 = 24;
pub const PCREL_LO12_S: u32 = 25;
pub const HI20: u32 = 26;
pub const LO12_I: u32 = 27;
pub const LO12_S: u32 = 28;
pub const ADD8: u32 = 33;
pub const ADD16: u32 = 34;
pub const ADD32: u32 = 35;
pub const ADD64: u32 = 36;
pub const SUB8: u32 = 37;
pub const SUB16: u32 = 38;
pub const SUB32: u32 = 39;
pub const SUB64: u32 = 40;
pub const ALIGN: u32 = 43;
pub const RVC_BRANCH: u32 = 44;
pub const RVC_JUMP: u32 = 45;
pub const RELAX: u32 = 51;
pub const SUB6: u32 = 52;
pub const SET6: u32 = 53;
pub const SET8: u32 = 54;
pub const SET16: u32 = 55;
pub const SET32: u32 = 56;
pub const WORD_PCREL: u32 = 57;

pub const MARKERS: [u32; 3] = [NONE, ALIGN, RELAX];

/// Every type that is neither a marker nor refused, with bytes of the form that
/// it asks for.
pub const STORING: [(u32, u64, usize); 27] = [
    (WORD, 0, 4),
    (BRANCH, 0x63, 4),
    (JAL, 0x6F, 4),
    (CALL, AUIPC_JALR, 8),
    (CALL_PLT, AUIPC_JALR, 8),
    (PCREL_HI20, 0x17, 4),
    (PCREL_LO12_I, 0x13, 4),
    (PCREL_LO12_S, 0x23, 4),
    (HI20, 0x37, 4),
    (LO12_I, 0x13, 4),
    (LO12_S, 0x23, 4),
    (ADD8, 0, 1),
    (ADD16, 0, 2),
    (ADD32, 0, 4),
    (ADD64, 0, 8),
    (SUB8, 0, 1),
    (SUB16, 0, 2),
    (SUB32, 0, 4),
    (SUB64, 0, 8),
    (RVC_BRANCH, 0xC101, 2),
    (RVC_JUMP, 0xA001, 2),
    (SUB6, 0, 1),
    (SET6, 0, 1),
    (SET8, 0, 1),
    (SET16, 0, 2),
    (SET32, 0, 4),
    (WORD_PCREL, 0, 4),
];

/// auipc ra, 0; jalr ra, ra, 0.
pub const AUIPC_JALR: u64 = 0x0000_80E7_0000_0097;

/// Where most sections are placed.
pub const PLACE: u64 = 0x1000;

/// `Fit::code` in a window that ends at 2^32 at the latest.
pub fn at(address: u64, bytes: &[u8], symbols: &[Symbol], list: &[Relocation]) -> Fit {
    let mut fit = Fit::code(address, bytes, symbols, list);
    let room = (1_u64 << 32) - fit.base;
    fit.image.truncate(room as usize);
    fit
}

/// `Fit::code` of class 2, in a window that ends at 2^64 at the latest.
pub fn at_64(address: u64, bytes: &[u8], symbols: &[Symbol], list: &[Relocation]) -> Fit {
    let mut fit = Fit::code(address, bytes, symbols, list).of(Class::Elf64);
    let room = (1_u128 << 64) - u128::from(fit.base);
    fit.image.truncate(room.min(1 << 32) as usize);
    fit
}

/// One relocation at the section's start against an absolute symbol.
pub fn one(kind: u32, bytes: &[u8], address: u64, target: u64) -> Fit {
    let list = [Relocation::new(0, kind, 1, 0)];
    at(address, bytes, &[Symbol::absolute(target)], &list)
}

/// The same in class 2.
pub fn one_64(kind: u32, bytes: &[u8], address: u64, target: u64) -> Fit {
    let list = [Relocation::new(0, kind, 1, 0)];
    at_64(address, bytes, &[Symbol::absolute(target)], &list)
}

pub fn words(words: &[u32]) -> Vec<u8> {
    words.iter().flat_map(|word| word.to_le_bytes()).collect()
}

/// The lowest bytes of a number.
pub fn low_bytes(number: u64, count: usize) -> Vec<u8> {
    number.to_le_bytes()[..count].to_vec()
}

//! The two ELF classes: where their fields stand, how long their numbers are, and
//! how far their halves reach. The type table and the instruction forms ask for
//! the class too.

use crate::numbers::{u32_at, u64_at, Whole};

/// What byte 4 of the file says: RV32 or RV64.
#[derive(Clone, Copy, PartialEq, Eq, Debug)]
pub enum Class {
    /// Class 1.
    Elf32,
    /// Class 2.
    Elf64,
}

/// Where the fields stand, by their names in the gABI, each counted from the
/// first byte of its entry; and how long the entries are.
#[derive(Debug)]
pub struct Layout {
    pub header_size: usize,
    pub e_shoff: usize,
    pub e_flags: usize,
    pub e_ehsize: usize,
    pub e_shentsize: usize,
    pub e_shnum: usize,

    pub section_header_size: usize,
    pub sh_flags: usize,
    pub sh_offset: usize,
    pub sh_size: usize,
    pub sh_link: usize,
    pub sh_info: usize,
    pub sh_addralign: usize,
    pub sh_entsize: usize,

    pub symbol_size: usize,
    pub st_info: usize,
    pub st_shndx: usize,
    pub st_value: usize,

    pub relocation_size: usize,
    pub r_info: usize,
    pub r_addend: usize,
    /// The lowest bit of the symbol in r_info; the bits below are the type.
    pub r_sym_bit: u32,
}

static ELF32: Layout = Layout {
    header_size: 52,
    e_shoff: 32,
    e_flags: 36,
    e_ehsize: 40,
    e_shentsize: 46,
    e_shnum: 48,

    section_header_size: 40,
    sh_flags: 8,
    sh_offset: 16,
    sh_size: 20,
    sh_link: 24,
    sh_info: 28,
    sh_addralign: 32,
    sh_entsize: 36,

    symbol_size: 16,
    st_info: 12,
    st_shndx: 14,
    st_value: 4,

    relocation_size: 12,
    r_info: 4,
    r_addend: 8,
    r_sym_bit: 8,
};

static ELF64: Layout = Layout {
    header_size: 64,
    e_shoff: 40,
    e_flags: 48,
    e_ehsize: 52,
    e_shentsize: 58,
    e_shnum: 60,

    section_header_size: 64,
    sh_flags: 8,
    sh_offset: 24,
    sh_size: 32,
    sh_link: 40,
    sh_info: 44,
    sh_addralign: 48,
    sh_entsize: 56,

    symbol_size: 24,
    st_info: 4,
    st_shndx: 6,
    st_value: 8,

    relocation_size: 24,
    r_info: 8,
    r_addend: 16,
    r_sym_bit: 32,
};

impl Class {
    pub const ALL: [Class; 2] = [Class::Elf32, Class::Elf64];

    /// The class of a file; `None` where it has none of the two.
    pub fn of(file: &[u8]) -> Option<Class> {
        match file.get(4)? {
            1 => Some(Class::Elf32),
            2 => Some(Class::Elf64),
            _ => None,
        }
    }

    pub fn layout(self) -> &'static Layout {
        match self {
            Class::Elf32 => &ELF32,
            Class::Elf64 => &ELF64,
        }
    }

    /// The end of the address space and the modulus of S and T: 2^32 or 2^64.
    pub fn address_end(self) -> Whole {
        match self {
            Class::Elf32 => 1 << 32,
            Class::Elf64 => 1 << 64,
        }
    }

    /// How many bytes an address has, and so a file offset, the flags, a size, an
    /// alignment, a value, r_info and an addend.
    pub fn address_bytes(self) -> usize {
        match self {
            Class::Elf32 => 4,
            Class::Elf64 => 8,
        }
    }

    /// The number of that many bytes at `offset`, if they are all there.
    pub fn number_at(self, bytes: &[u8], offset: usize) -> Option<u64> {
        match self {
            Class::Elf32 => u32_at(bytes, offset).map(u64::from),
            Class::Elf64 => u64_at(bytes, offset),
        }
    }

    /// The same with a sign.
    pub fn signed_number_at(self, bytes: &[u8], offset: usize) -> Option<i64> {
        let number = self.number_at(bytes, offset)?;
        Some(self.signed(Whole::from(number)) as i64)
    }

    /// A number modulo 2^32 or 2^64, read as signed.
    pub fn signed(self, number: Whole) -> Whole {
        let end = self.address_end();
        let reduced = number.rem_euclid(end);
        if reduced < end / 2 {
            reduced
        } else {
            reduced - end
        }
    }

    /// Whether the high and the low half together lead to x. In class 1 they
    /// lead everywhere. In class 2 x, "read as a signed 64-bit number, lies in
    /// -2,147,485,696..2,147,481,599".
    pub fn halves_reach(self, x: Whole) -> bool {
        match self {
            Class::Elf32 => true,
            Class::Elf64 => (-2_147_485_696..=2_147_481_599).contains(&self.signed(x)),
        }
    }
}

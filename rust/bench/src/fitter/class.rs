//! The two classes: where the fields of their entries stand, and how long these
//! are. All that reads one is built once for each class, so that no class is
//! asked for when it runs.

use super::bytes::{u16_at, u32_at, u64_at};
use super::forms::{MISSING_FORMS_32, MISSING_FORMS_64};
use super::types::{Effect, Table, EFFECTS_32, EFFECTS_64, RULES_32, RULES_64};

/// A number as long as an address of the class.
pub trait Word: Copy + Ord + Default {
    /// The lowest bits of a number.
    fn cut(number: u64) -> Self;
    fn whole(self) -> u64;
}

impl Word for u32 {
    #[inline(always)]
    fn cut(number: u64) -> u32 {
        number as u32
    }

    #[inline(always)]
    fn whole(self) -> u64 {
        u64::from(self)
    }
}

impl Word for u64 {
    #[inline(always)]
    fn cut(number: u64) -> u64 {
        number
    }

    #[inline(always)]
    fn whole(self) -> u64 {
        self
    }
}

/// Bit 0 of e_flags, in its first byte.
const RVC: u8 = 1;

/// What the header says that later checks need.
pub struct Header {
    /// e_flags bit 0.
    pub has_compressed: bool,
    pub section_table: u64,
    pub section_entry_size: u16,
    pub section_count: u16,
}

/// A relocation as its class has it.
pub struct Raw<W> {
    pub offset: W,
    pub kind: u32,
    pub symbol: u32,
    pub addend: i64,
}

pub trait Class: 'static {
    type Word: Word;
    type Section: 'static;
    type Symbol: 'static;
    type Relocation: 'static;
    /// An index and a number: a placement or an external value.
    type Pair: 'static;

    const IS_64: bool;
    const LAST_ADDRESS: u64;
    const SECTION_SIZE: usize;
    const SYMBOL_SIZE: usize;
    const RELOCATION_SIZE: usize;

    // The places in a section header.
    const OFFSET: usize;
    const SIZE: usize;
    const LINK: usize;
    const INFO: usize;
    const ALIGNMENT: usize;
    const ENTRY_SIZE: usize;

    /// Without compressed instructions, and with them.
    const RULES: &'static [Table; 2];
    const EFFECTS: &'static [Effect; 256];
    const MISSING_FORMS: &'static [u8; 2_048];

    /// What only this class has in a header that is right otherwise.
    fn header(file: &[u8]) -> Option<Header>;

    fn sections(table: &[u8]) -> &[Self::Section];
    fn symbols(table: &[u8]) -> &[Self::Symbol];
    fn relocations(list: &[u8]) -> &[Self::Relocation];

    fn section_word(section: &Self::Section, at: usize) -> u32;
    fn section_number(section: &Self::Section, at: usize) -> u64;

    fn symbol_value(symbol: &Self::Symbol) -> Self::Word;
    fn symbol_info(symbol: &Self::Symbol) -> u8;
    fn symbol_section(symbol: &Self::Symbol) -> u16;

    fn relocation(relocation: &Self::Relocation) -> Raw<Self::Word>;

    /// The first number of an order's bytes, and what follows it.
    fn split_number(bytes: &[u8]) -> Option<(u64, &[u8])>;
    /// So many pairs, and what follows them.
    fn split_pairs(bytes: &[u8], count: usize) -> Option<(&[Self::Pair], &[u8])>;
    fn pair(pair: &Self::Pair) -> (u32, u64);

    /// T - P, reduced to a signed number as long as an address.
    fn distance(t: Self::Word, place: u64) -> i64;
}

pub struct Elf32;
pub struct Elf64;

impl Class for Elf32 {
    type Word = u32;
    type Section = [u8; 40];
    type Symbol = [u8; 16];
    /// Three numbers: offset, symbol and type, and addend.
    type Relocation = [[u8; 4]; 3];
    type Pair = [u8; 8];

    const IS_64: bool = false;
    const LAST_ADDRESS: u64 = u32::MAX as u64;
    const SECTION_SIZE: usize = 40;
    const SYMBOL_SIZE: usize = 16;
    const RELOCATION_SIZE: usize = 12;

    const OFFSET: usize = 16;
    const SIZE: usize = 20;
    const LINK: usize = 24;
    const INFO: usize = 28;
    const ALIGNMENT: usize = 32;
    const ENTRY_SIZE: usize = 36;

    const RULES: &'static [Table; 2] = &RULES_32;
    const EFFECTS: &'static [Effect; 256] = &EFFECTS_32;
    const MISSING_FORMS: &'static [u8; 2_048] = &MISSING_FORMS_32;

    fn header(file: &[u8]) -> Option<Header> {
        let header: &[u8; 52] = file.first_chunk()?;
        // e_ehsize
        (u16_at(header, 40) == 52).then_some(Header {
            has_compressed: header[36] & RVC != 0,
            section_table: u64::from(u32_at(header, 32)),
            section_entry_size: u16_at(header, 46),
            section_count: u16_at(header, 48),
        })
    }

    fn sections(table: &[u8]) -> &[[u8; 40]] {
        table.as_chunks().0
    }

    fn symbols(table: &[u8]) -> &[[u8; 16]] {
        table.as_chunks().0
    }

    fn relocations(list: &[u8]) -> &[[[u8; 4]; 3]] {
        list.as_chunks().0.as_chunks().0
    }

    #[inline(always)]
    fn section_word(section: &[u8; 40], at: usize) -> u32 {
        u32_at(section, at)
    }

    #[inline(always)]
    fn section_number(section: &[u8; 40], at: usize) -> u64 {
        u64::from(u32_at(section, at))
    }

    #[inline(always)]
    fn symbol_value(symbol: &[u8; 16]) -> u32 {
        u32_at(symbol, 4)
    }

    #[inline(always)]
    fn symbol_info(symbol: &[u8; 16]) -> u8 {
        symbol[12]
    }

    #[inline(always)]
    fn symbol_section(symbol: &[u8; 16]) -> u16 {
        u16_at(symbol, 14)
    }

    #[inline(always)]
    fn relocation(relocation: &[[u8; 4]; 3]) -> Raw<u32> {
        let [offset, info, addend] = relocation.map(u32::from_le_bytes);
        Raw {
            offset,
            kind: info & 0xFF,
            symbol: info >> 8,
            addend: i64::from(addend as i32),
        }
    }

    fn split_number(bytes: &[u8]) -> Option<(u64, &[u8])> {
        let (number, rest) = bytes.split_first_chunk()?;
        Some((u64::from(u32::from_le_bytes(*number)), rest))
    }

    fn split_pairs(bytes: &[u8], count: usize) -> Option<(&[[u8; 8]], &[u8])> {
        let (list, rest) = bytes.split_at_checked(8 * count)?;
        Some((list.as_chunks().0, rest))
    }

    #[inline(always)]
    fn pair(pair: &[u8; 8]) -> (u32, u64) {
        (u32_at(pair, 0), u64::from(u32_at(pair, 4)))
    }

    #[inline(always)]
    fn distance(t: u32, place: u64) -> i64 {
        i64::from(t.wrapping_sub(place as u32) as i32)
    }
}

impl Class for Elf64 {
    type Word = u64;
    type Section = [u8; 64];
    type Symbol = [u8; 24];
    /// Three numbers: offset, symbol and type, and addend.
    type Relocation = [[u8; 8]; 3];
    type Pair = [u8; 12];

    const IS_64: bool = true;
    const LAST_ADDRESS: u64 = u64::MAX;
    const SECTION_SIZE: usize = 64;
    const SYMBOL_SIZE: usize = 24;
    const RELOCATION_SIZE: usize = 24;

    const OFFSET: usize = 24;
    const SIZE: usize = 32;
    const LINK: usize = 40;
    const INFO: usize = 44;
    const ALIGNMENT: usize = 48;
    const ENTRY_SIZE: usize = 56;

    const RULES: &'static [Table; 2] = &RULES_64;
    const EFFECTS: &'static [Effect; 256] = &EFFECTS_64;
    const MISSING_FORMS: &'static [u8; 2_048] = &MISSING_FORMS_64;

    fn header(file: &[u8]) -> Option<Header> {
        let header: &[u8; 64] = file.first_chunk()?;
        // e_ehsize
        (u16_at(header, 52) == 64).then_some(Header {
            has_compressed: header[48] & RVC != 0,
            section_table: u64_at(header, 40),
            section_entry_size: u16_at(header, 58),
            section_count: u16_at(header, 60),
        })
    }

    fn sections(table: &[u8]) -> &[[u8; 64]] {
        table.as_chunks().0
    }

    fn symbols(table: &[u8]) -> &[[u8; 24]] {
        table.as_chunks().0
    }

    fn relocations(list: &[u8]) -> &[[[u8; 8]; 3]] {
        list.as_chunks().0.as_chunks().0
    }

    #[inline(always)]
    fn section_word(section: &[u8; 64], at: usize) -> u32 {
        u32_at(section, at)
    }

    #[inline(always)]
    fn section_number(section: &[u8; 64], at: usize) -> u64 {
        u64_at(section, at)
    }

    #[inline(always)]
    fn symbol_value(symbol: &[u8; 24]) -> u64 {
        u64_at(symbol, 8)
    }

    #[inline(always)]
    fn symbol_info(symbol: &[u8; 24]) -> u8 {
        symbol[4]
    }

    #[inline(always)]
    fn symbol_section(symbol: &[u8; 24]) -> u16 {
        u16_at(symbol, 6)
    }

    #[inline(always)]
    fn relocation(relocation: &[[u8; 8]; 3]) -> Raw<u64> {
        let [offset, info, addend] = relocation.map(u64::from_le_bytes);
        Raw {
            offset,
            kind: info as u32,
            symbol: (info >> 32) as u32,
            addend: addend as i64,
        }
    }

    fn split_number(bytes: &[u8]) -> Option<(u64, &[u8])> {
        let (number, rest) = bytes.split_first_chunk()?;
        Some((u64::from_le_bytes(*number), rest))
    }

    fn split_pairs(bytes: &[u8], count: usize) -> Option<(&[[u8; 12]], &[u8])> {
        let (list, rest) = bytes.split_at_checked(12 * count)?;
        Some((list.as_chunks().0, rest))
    }

    #[inline(always)]
    fn pair(pair: &[u8; 12]) -> (u32, u64) {
        (u32_at(pair, 0), u64_at(pair, 4))
    }

    #[inline(always)]
    fn distance(t: u64, place: u64) -> i64 {
        t.wrapping_sub(place) as i64
    }
}

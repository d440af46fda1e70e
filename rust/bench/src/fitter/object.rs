//! The ELF header (check 4) and the section headers (check 5), read where they
//! stand in the file.

use super::bytes::{u16_at, u32_at};
use super::class::{Class, Header};
use super::types::Table;
use super::MAX_BYTES;

const NULL: u32 = 0;
const SYMTAB: u32 = 2;
const RELA: u32 = 4;
const NOBITS: u32 = 8;
const REL: u32 = 9;

/// The most sections.
pub const MAX_SECTIONS: usize = 128;
pub const MAX_SYMBOLS: usize = 8_192;
pub const MAX_RELOCATIONS: usize = 32_768;

/// A set of sections, a bit each.
pub type Set = u128;

/// Check 4: `None` where the header or the file's length is wrong. The class is
/// known.
pub fn read_header<C: Class>(file: &[u8]) -> Option<Header> {
    // What both classes have at one place.
    let start: &[u8; 24] = file.first_chunk()?;
    let is_right = file.len() <= MAX_BYTES
        && start[..4] == [0x7F, b'E', b'L', b'F']
        && start[5..7] == [1, 1]
        && u16_at(start, 16) == 1 // e_type
        && u16_at(start, 18) == 243 // e_machine
        && u32_at(start, 20) == 1; // e_version
    is_right.then(|| C::header(file)).flatten()
}

/// One section header, where it stands.
pub struct Section<'a, C: Class>(&'a C::Section);

impl<C: Class> Clone for Section<'_, C> {
    fn clone(&self) -> Self {
        *self
    }
}

impl<C: Class> Copy for Section<'_, C> {}

impl<C: Class> Section<'_, C> {
    fn kind(self) -> u32 {
        C::section_word(self.0, 4)
    }

    fn flags(self) -> u64 {
        C::section_number(self.0, 8)
    }

    fn offset(self) -> u64 {
        C::section_number(self.0, C::OFFSET)
    }

    pub fn size(self) -> u64 {
        C::section_number(self.0, C::SIZE)
    }

    fn link(self) -> usize {
        C::section_word(self.0, C::LINK) as usize
    }

    pub fn info(self) -> usize {
        C::section_word(self.0, C::INFO) as usize
    }

    pub fn alignment(self) -> u64 {
        C::section_number(self.0, C::ALIGNMENT)
    }

    fn entry_size(self) -> u64 {
        C::section_number(self.0, C::ENTRY_SIZE)
    }

    fn is_allocated(self) -> bool {
        self.flags() & 2 != 0 && self.kind() != NULL
    }
}

/// An object that passed checks 4 and 5.
pub struct Object<'a, C: Class> {
    pub file: &'a [u8],
    /// What the types of its relocations ask for.
    pub rules: &'static Table,
    headers: &'a [C::Section],
    /// The sections that are allocated.
    pub allocated: Set,
    /// Those that are allocated and have bytes in the file.
    pub loaded: Set,
    /// The RELA sections that count.
    relocation_sections: Set,
    symbol_table: Option<usize>,
}

impl<'a, C: Class> Object<'a, C> {
    /// The error is the place: 0 for the table, and otherwise the lowest
    /// section that breaks a rule.
    pub fn read(file: &'a [u8], header: &Header) -> Result<Object<'a, C>, u32> {
        let mut object = Object {
            file,
            rules: &C::RULES[usize::from(header.has_compressed)],
            headers: section_headers::<C>(file, header).ok_or(0_u32)?,
            allocated: 0,
            loaded: 0,
            relocation_sections: 0,
            symbol_table: None,
        };
        for (index, section) in object.sections().enumerate() {
            let allocated = Set::from(section.is_allocated()) << index;
            object.allocated |= allocated;
            if section.kind() != NOBITS {
                object.loaded |= allocated;
            }
            if section.kind() == SYMTAB && object.symbol_table.is_none() {
                object.symbol_table = Some(index);
            }
        }
        object.check_sections()?;
        Ok(object)
    }

    fn sections(&self) -> impl Iterator<Item = Section<'a, C>> + use<'a, C> {
        self.headers.iter().map(Section)
    }

    pub fn section(&self, index: usize) -> Section<'a, C> {
        Section(&self.headers[index])
    }

    /// Whether the sections keep their rules; finds those that hold
    /// relocations on the way.
    fn check_sections(&mut self) -> Result<(), u32> {
        let (mut targets, mut relocations): (Set, u64) = (0, 0);
        for (index, section) in self.sections().enumerate() {
            let mut holds = self.is_well_formed(index, section);
            if matches!(section.kind(), RELA | REL) && is_in(self.allocated, section.info()) {
                let target = 1 << section.info();
                holds = holds && self.is_right_rela(section) && targets & target == 0;
                targets |= target;
                // A section outside the file is not counted: it is refused.
                if holds {
                    relocations += section.size() / C::RELOCATION_SIZE as u64;
                }
                holds = holds && relocations <= MAX_RELOCATIONS as u64;
                self.relocation_sections |= 1 << index;
            }
            if !holds {
                return Err(index as u32);
            }
        }
        Ok(())
    }

    /// The rules that are not about relocations.
    fn is_well_formed(&self, index: usize, section: Section<C>) -> bool {
        let kind = section.kind();
        let end = section.offset().checked_add(section.size());
        let is_in_file =
            matches!(kind, NULL | NOBITS) || end.is_some_and(|end| end <= self.file.len() as u64);
        let alignment = section.alignment();
        let is_aligned = alignment & alignment.wrapping_sub(1) == 0;
        let may_be_allocated = is_aligned && !matches!(kind, SYMTAB | RELA | REL);
        (index != 0 || kind == NULL)
            && is_in_file
            && (may_be_allocated || !is_in(self.allocated, index))
            && (kind != SYMTAB || self.is_right_symbol_table(index, section))
    }

    fn is_right_symbol_table(&self, index: usize, section: Section<C>) -> bool {
        let each = C::SYMBOL_SIZE as u64;
        self.symbol_table == Some(index)
            && section.entry_size() == each
            && section.size().is_multiple_of(each)
            && section.size() <= each * MAX_SYMBOLS as u64
    }

    /// A section that counts must be a RELA section with whole entries, and
    /// patch a loaded section.
    fn is_right_rela(&self, section: Section<C>) -> bool {
        let each = C::RELOCATION_SIZE as u64;
        section.kind() == RELA
            && section.entry_size() == each
            && section.size().is_multiple_of(each)
            && self.symbol_table == Some(section.link())
            && is_in(self.loaded, section.info())
    }

    pub fn symbols(&self) -> &'a [C::Symbol] {
        match self.symbol_table {
            Some(index) => C::symbols(self.bytes_of(self.section(index))),
            None => &[],
        }
    }

    /// The RELA sections that count, upward: the section that each patches, and
    /// its relocations.
    pub fn relocation_sections(&self) -> impl Iterator<Item = (usize, &'a [C::Relocation])> + '_ {
        indexes(self.relocation_sections).map(|index| {
            let section = self.section(index);
            (section.info(), C::relocations(self.bytes_of(section)))
        })
    }

    pub fn bytes_of(&self, section: Section<C>) -> &'a [u8] {
        &self.bytes_from(section)[..section.size() as usize]
    }

    /// The file from the first byte of a section in it on.
    pub fn bytes_from(&self, section: Section<C>) -> &'a [u8] {
        &self.file[section.offset() as usize..]
    }
}

/// Check 5 at place 0.
fn section_headers<'a, C: Class>(file: &'a [u8], header: &Header) -> Option<&'a [C::Section]> {
    let count = usize::from(header.section_count);
    if usize::from(header.section_entry_size) != C::SECTION_SIZE
        || !(1..=MAX_SECTIONS).contains(&count)
    {
        return None;
    }
    let start = usize::try_from(header.section_table).ok()?;
    let table = file.get(start..)?.get(..count * C::SECTION_SIZE)?;
    Some(C::sections(table))
}

/// Whether a set of sections holds this index, which may be any number.
pub fn is_in(set: Set, index: usize) -> bool {
    index < MAX_SECTIONS && set >> index & 1 != 0
}

/// The indexes in a set of sections, upward.
pub fn indexes(set: Set) -> impl Iterator<Item = usize> {
    let mut left = set;
    std::iter::from_fn(move || {
        let lowest = (left != 0).then_some(left.trailing_zeros() as usize);
        left &= left.wrapping_sub(1);
        lowest
    })
}

//! "What the object may hold": the ELF header (check 4), the section header
//! table and the rules of its sections (check 5).

use crate::class::Class;
use crate::numbers::{u16_at, u32_at, FileOffset, Whole};
use crate::relocation::Relocation;
use crate::symbol::{SymbolTable, MAX_SYMBOLS};
use crate::MAX_BYTES;

/// Ticket 7: "Rows and placements up to 128".
pub const MAX_SECTIONS: usize = 128;
/// Ticket 7: "records up to 32,768", in all counting RELA rows together.
pub const MAX_RELOCATIONS: u64 = 32_768;

pub const NULL: u32 = 0;
pub const PROGBITS: u32 = 1;
pub const SYMTAB: u32 = 2;
pub const RELA: u32 = 4;
pub const NOBITS: u32 = 8;
pub const REL: u32 = 9;

/// "flag bit 2 (value 2)"
const ALLOCATED: u64 = 2;

/// "e_flags bit 0". The psABI: "This bit is set when the binary targets the C
/// ABI, which allows instructions to be aligned to 16-bit boundaries".
const RVC: u32 = 1;

/// What later checks need of a header that passed check 4.
#[derive(Clone, Copy, Debug)]
pub struct Header {
    pub class: Class,
    has_compressed: bool,
    section_table: FileOffset,
    section_entry_size: u16,
    section_count: u16,
}

impl Header {
    /// Check 4: `None` where "header or file length" is wrong.
    pub fn read(file: &[u8]) -> Option<Header> {
        let class = Class::of(file)?;
        let layout = class.layout();
        let ident_and_versions = file.len() <= MAX_BYTES
            && file.len() >= layout.header_size
            && file[0..4] == [0x7F, 0x45, 0x4C, 0x46]
            && file[5] == 1 // data
            && file[6] == 1 // ident version
            && u16_at(file, 16)? == 1 // e_type
            && u16_at(file, 18)? == 243 // e_machine
            && u32_at(file, 20)? == 1 // e_version
            && usize::from(u16_at(file, layout.e_ehsize)?) == layout.header_size;
        if !ident_and_versions {
            return None;
        }
        Some(Header {
            class,
            has_compressed: u32_at(file, layout.e_flags)? & RVC != 0,
            section_table: FileOffset(class.number_at(file, layout.e_shoff)?),
            section_entry_size: u16_at(file, layout.e_shentsize)?,
            section_count: u16_at(file, layout.e_shnum)?,
        })
    }

    /// Check 5 at place 0: "e_shentsize 40, 1 to 32 rows of 40 bytes, wholly
    /// inside the file"; of 64 bytes in class 2, and up to 128 rows.
    fn section_table<'a>(&self, file: &'a [u8]) -> Option<&'a [u8]> {
        let count = usize::from(self.section_count);
        let size = self.class.layout().section_header_size;
        if usize::from(self.section_entry_size) != size || !(1..=MAX_SECTIONS).contains(&count) {
            return None;
        }
        let behind = file.get(usize::try_from(self.section_table.0).ok()?..)?;
        behind.get(..count * size)
    }
}

/// Document 01: row. One header of the section header table.
#[derive(Clone, Copy, Debug)]
pub struct Section {
    pub kind: u32,
    pub flags: u64,
    pub offset: FileOffset,
    pub size: u64,
    pub link: u32,
    pub info: u32,
    pub alignment: u64,
    pub entry_size: u64,
}

impl Section {
    fn read(header: &[u8], class: Class) -> Option<Section> {
        let layout = class.layout();
        let number_at = |at| class.number_at(header, at);
        Some(Section {
            kind: u32_at(header, 4)?,
            flags: number_at(layout.sh_flags)?,
            offset: FileOffset(number_at(layout.sh_offset)?),
            size: number_at(layout.sh_size)?,
            link: u32_at(header, layout.sh_link)?,
            info: u32_at(header, layout.sh_info)?,
            alignment: number_at(layout.sh_addralign)?,
            entry_size: number_at(layout.sh_entsize)?,
        })
    }

    /// "allocated if flag bit 2 (value 2) is set and its type is not NULL"
    pub fn is_allocated(&self) -> bool {
        self.flags & ALLOCATED != 0 && self.kind != NULL
    }

    /// Document 01: laid. "allocated and not NOBITS"
    pub fn is_loaded(&self) -> bool {
        self.is_allocated() && self.kind != NOBITS
    }
}

/// An object that passed checks 4 and 5.
#[derive(Debug)]
pub struct Object<'a> {
    class: Class,
    has_compressed: bool,
    file: &'a [u8],
    sections: Vec<Section>,
}

/// The relocations of one counting RELA section.
#[derive(Debug)]
pub struct RelocationSection {
    /// The index of the section that they patch.
    pub target: usize,
    /// In file order.
    pub relocations: Vec<Relocation>,
}

impl<'a> Object<'a> {
    /// Check 5: the error is the place, 0 for the table itself and otherwise
    /// the lowest section that breaks a rule.
    pub fn read(file: &'a [u8], header: Header) -> Result<Object<'a>, u32> {
        let table = header.section_table(file).ok_or(0_u32)?;
        let class = header.class;
        let object = Object {
            class,
            has_compressed: header.has_compressed,
            file,
            sections: table
                .chunks_exact(class.layout().section_header_size)
                .filter_map(|header| Section::read(header, class))
                .collect(),
        };
        let broken = |index: &usize| SECTION_RULES.iter().any(|holds| !holds(&object, *index));
        match (0..object.sections.len()).find(broken) {
            Some(index) => Err(index as u32),
            None => Ok(object),
        }
    }

    pub fn class(&self) -> Class {
        self.class
    }

    /// Whether the box has short instructions, as far as the object says:
    /// e_flags bit 0 is set.
    pub fn has_compressed(&self) -> bool {
        self.has_compressed
    }

    pub fn sections(&self) -> &[Section] {
        &self.sections
    }

    /// The section with this index, if the table has one.
    pub fn section(&self, index: u32) -> Option<&Section> {
        self.sections.get(index as usize)
    }

    /// The allocated sections with their indexes, upward.
    pub fn allocated(&self) -> impl Iterator<Item = (usize, &Section)> {
        let indexed = self.sections.iter().enumerate();
        indexed.filter(|(_, section)| section.is_allocated())
    }

    /// "A row's bytes are handed back as a part of the caller's object, never
    /// copied first."
    pub fn bytes_of(&self, section: &Section) -> &'a [u8] {
        let start = section.offset.0 as usize;
        &self.file[start..start + section.size as usize]
    }

    /// The entries of the SYMTAB, if there is one.
    pub fn symbol_table(&self) -> Option<SymbolTable<'a>> {
        let section = &self.sections[self.lowest_symbol_table()?];
        Some(SymbolTable::new(self.class, self.bytes_of(section)))
    }

    /// The counting RELA sections, upward.
    pub fn relocation_sections(&self) -> Vec<RelocationSection> {
        let counting = self.sections.iter().filter(|s| self.is_counting(s));
        counting
            .map(|section| RelocationSection {
                target: section.info as usize,
                relocations: Relocation::read_all(self.bytes_of(section), self.class),
            })
            .collect()
    }

    fn lowest_symbol_table(&self) -> Option<usize> {
        self.sections.iter().position(|s| s.kind == SYMTAB)
    }

    /// "A RELA or REL row counts only if its info names an allocated row."
    fn is_counting(&self, section: &Section) -> bool {
        matches!(section.kind, RELA | REL)
            && self
                .section(section.info)
                .is_some_and(Section::is_allocated)
    }
}

/// The section rules, a function for each sentence in the paper's order; each
/// says whether the section with that index keeps the rule.
const SECTION_RULES: [fn(&Object, usize) -> bool; 6] = [
    section_0_is_null,
    stays_inside_the_file,
    allocated_section_is_well_formed,
    symbol_table_is_well_formed,
    is_no_counting_rel,
    counting_rela_is_well_formed,
];

/// "Row 0 is NULL."
fn section_0_is_null(object: &Object, index: usize) -> bool {
    index != 0 || object.sections[0].kind == NULL
}

/// "Except for NULL and NOBITS, offset + size stays inside the file."
fn stays_inside_the_file(object: &Object, index: usize) -> bool {
    let section = &object.sections[index];
    let end = Whole::from(section.offset.0) + Whole::from(section.size);
    matches!(section.kind, NULL | NOBITS) || end <= object.file.len() as Whole
}

/// "An allocated row has alignment 0, or an alignment with exactly one bit
/// set; it is not SYMTAB, RELA or REL."
fn allocated_section_is_well_formed(object: &Object, index: usize) -> bool {
    let section = &object.sections[index];
    let alignment_fits = section.alignment == 0 || section.alignment.count_ones() == 1;
    let kind_fits = !matches!(section.kind, SYMTAB | RELA | REL);
    !section.is_allocated() || (alignment_fits && kind_fits)
}

/// "At most one SYMTAB: entry size 16, whole entries, at most 1,024. The
/// higher row of two is at fault." Entry size 24 in class 2, and up to 8,192
/// entries.
fn symbol_table_is_well_formed(object: &Object, index: usize) -> bool {
    let section = &object.sections[index];
    let symbol_size = object.class.layout().symbol_size as u64;
    section.kind != SYMTAB
        || (object.lowest_symbol_table() == Some(index)
            && section.entry_size == symbol_size
            && section.size.is_multiple_of(symbol_size)
            && section.size / symbol_size <= u64::from(MAX_SYMBOLS))
}

/// "A counting REL is refused."
fn is_no_counting_rel(object: &Object, index: usize) -> bool {
    let section = &object.sections[index];
    section.kind != REL || !object.is_counting(section)
}

/// "A counting RELA has entry size 12, whole entries, links to the SYMTAB (the
/// lowest, if there are two), and targets a laid row that no lower counting
/// RELA targets." Entry size 24 in class 2.
fn counting_rela_is_well_formed(object: &Object, index: usize) -> bool {
    let section = &object.sections[index];
    if section.kind != RELA || !object.is_counting(section) {
        return true;
    }
    let relocation_size = object.class.layout().relocation_size as u64;
    let lower = || counting_rela_sections(&object.sections[..index], object);
    section.entry_size == relocation_size
        && section.size.is_multiple_of(relocation_size)
        && object.lowest_symbol_table() == Some(section.link as usize)
        && object.section(section.info).is_some_and(Section::is_loaded)
        && !lower().any(|other| other.info == section.info)
        && relocations_up_to(index, object) <= MAX_RELOCATIONS
}

/// "All counting RELA rows together hold at most 4,096 records; the row that
/// passes this is at fault." Now up to 32,768. Here: how many the rows up to
/// this one hold.
fn relocations_up_to(index: usize, object: &Object) -> u64 {
    let relocation_size = object.class.layout().relocation_size as u64;
    counting_rela_sections(&object.sections[..=index], object)
        .map(|section| section.size / relocation_size)
        .sum()
}

fn counting_rela_sections<'s>(
    sections: &'s [Section],
    object: &'s Object,
) -> impl Iterator<Item = &'s Section> {
    let rela = sections.iter().filter(|section| section.kind == RELA);
    rela.filter(|section| object.is_counting(section))
}

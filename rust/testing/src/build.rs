//! Builds objects and orders of both classes, and ledgers: right ones and
//! slightly wrong ones.

use crate::{numbers, Numbers};
pub use reference::Class;
use reference::{install, Answer};

pub const NULL: u32 = 0;
pub const PROGBITS: u32 = 1;
pub const SYMTAB: u32 = 2;
pub const RELA: u32 = 4;
pub const NOBITS: u32 = 8;
pub const REL: u32 = 9;
pub const ALLOCATED: u64 = 2;

/// e_flags bit 0: the code may have compressed instructions. Most real objects
/// have it set, and so has every object here that does not say otherwise.
pub const RVC: u32 = 1;

pub const ABSOLUTE: u16 = 0xFFF1;
pub const COMMON: u16 = 0xFFF2;
pub const GLOBAL: u8 = 0x10;
pub const WEAK: u8 = 0x20;
pub const TLS: u8 = 6;
pub const IFUNC: u8 = 10;

/// One section header and what it points to. `offset`, `size` and `entry_size`
/// are worked out unless given.
#[derive(Clone, Default, Debug)]
pub struct Section {
    pub kind: u32,
    pub flags: u64,
    pub offset: Option<u64>,
    pub size: Option<u64>,
    pub link: u32,
    pub info: u32,
    pub alignment: u64,
    pub entry_size: Option<u64>,
    /// The section's bytes, where it has no entries.
    pub bytes: Vec<u8>,
    pub entries: Entries,
}

/// What a table holds; its bytes depend on the object's class.
#[derive(Clone, Default, Debug)]
pub enum Entries {
    #[default]
    None,
    Symbols(Vec<Symbol>),
    Relocations(Vec<Relocation>),
}

impl Section {
    pub fn loaded(alignment: u64, bytes: &[u8]) -> Section {
        Section {
            kind: PROGBITS,
            flags: ALLOCATED,
            alignment,
            bytes: bytes.to_vec(),
            ..Section::default()
        }
    }

    pub fn nobits(alignment: u64, size: u64) -> Section {
        Section {
            kind: NOBITS,
            flags: ALLOCATED,
            alignment,
            size: Some(size),
            ..Section::default()
        }
    }

    pub fn symbols(symbols: &[Symbol]) -> Section {
        Section {
            kind: SYMTAB,
            entries: Entries::Symbols(symbols.to_vec()),
            ..Section::default()
        }
    }

    pub fn relocations(target: u32, symtab: u32, relocations: &[Relocation]) -> Section {
        Section {
            kind: RELA,
            link: symtab,
            info: target,
            entries: Entries::Relocations(relocations.to_vec()),
            ..Section::default()
        }
    }

    /// The symbols of a symbol table, to be changed.
    pub fn symbols_mut(&mut self) -> &mut Vec<Symbol> {
        match &mut self.entries {
            Entries::Symbols(symbols) => symbols,
            _ => panic!("a symbol table"),
        }
    }

    /// The relocations of a RELA section, to be changed.
    pub fn relocations_mut(&mut self) -> &mut Vec<Relocation> {
        match &mut self.entries {
            Entries::Relocations(relocations) => relocations,
            _ => panic!("a RELA section"),
        }
    }

    fn contents(&self, class: Class) -> Vec<u8> {
        match &self.entries {
            Entries::None => self.bytes.clone(),
            Entries::Symbols(all) => all.iter().flat_map(|one| one.bytes(class)).collect(),
            Entries::Relocations(all) => all.iter().flat_map(|one| one.bytes(class)).collect(),
        }
    }

    fn own_entry_size(&self, class: Class) -> u64 {
        match &self.entries {
            Entries::None => 0,
            Entries::Symbols(_) => symbol_size(class),
            Entries::Relocations(_) => relocation_size(class),
        }
    }

    /// The section header. The file has `end` bytes so far.
    fn header(&self, class: Class, end: u64, length: u64) -> Vec<u8> {
        let number = |number| number_of(class, number);
        let word = |word: u32| word.to_le_bytes().to_vec();
        [
            word(0),
            word(self.kind),
            number(self.flags),
            number(0),
            number(self.offset.unwrap_or(end)),
            number(self.size.unwrap_or(length)),
            word(self.link),
            word(self.info),
            number(self.alignment),
            number(self.entry_size.unwrap_or(self.own_entry_size(class))),
        ]
        .concat()
    }
}

/// How long the header is.
pub fn header_size(class: Class) -> usize {
    match class {
        Class::Elf32 => 52,
        Class::Elf64 => 64,
    }
}

/// Where the header has e_flags.
pub fn flags_at(class: Class) -> usize {
    match class {
        Class::Elf32 => 36,
        Class::Elf64 => 48,
    }
}

/// How long a section header is.
pub fn section_size(class: Class) -> usize {
    match class {
        Class::Elf32 => 40,
        Class::Elf64 => 64,
    }
}

/// How long a symbol is.
pub fn symbol_size(class: Class) -> u64 {
    match class {
        Class::Elf32 => 16,
        Class::Elf64 => 24,
    }
}

/// How long a relocation is.
pub fn relocation_size(class: Class) -> u64 {
    match class {
        Class::Elf32 => 12,
        Class::Elf64 => 24,
    }
}

/// A number as the class has addresses: its lowest four or eight bytes.
pub fn number_of(class: Class, number: u64) -> Vec<u8> {
    let count = match class {
        Class::Elf32 => 4,
        Class::Elf64 => 8,
    };
    number.to_le_bytes()[..count].to_vec()
}

#[derive(Clone, Copy, Default, Debug)]
pub struct Symbol {
    pub value: u64,
    pub info: u8,
    pub section: u16,
}

impl Symbol {
    pub fn new(info: u8, section: u16, value: u64) -> Symbol {
        Symbol {
            value,
            info,
            section,
        }
    }

    pub fn absolute(value: u64) -> Symbol {
        Symbol::new(GLOBAL, ABSOLUTE, value)
    }

    fn bytes(&self, class: Class) -> Vec<u8> {
        let (name, value, size) = ([0; 4], number_of(class, self.value), number_of(class, 0));
        let section = self.section.to_le_bytes();
        let rest = [self.info, 0, section[0], section[1]];
        match class {
            Class::Elf32 => [&name[..], &value, &size, &rest].concat(),
            Class::Elf64 => [&name[..], &rest, &value, &size].concat(),
        }
    }
}

#[derive(Clone, Copy, Debug)]
pub struct Relocation {
    pub offset: u64,
    /// Class 1 has room for its lowest 8 bits.
    pub kind: u32,
    /// Class 1 has room for its lowest 24 bits.
    pub symbol: u32,
    pub addend: i64,
}

impl Relocation {
    pub fn new(offset: u64, kind: u32, symbol: u32, addend: i64) -> Relocation {
        Relocation {
            offset,
            kind,
            symbol,
            addend,
        }
    }

    fn bytes(&self, class: Class) -> Vec<u8> {
        let (kind, symbol) = (u64::from(self.kind), u64::from(self.symbol));
        let info = match class {
            Class::Elf32 => symbol << 8 | kind & 0xFF,
            Class::Elf64 => symbol << 32 | kind,
        };
        let numbers = [self.offset, info, self.addend as u64];
        numbers.map(|number| number_of(class, number)).concat()
    }
}

/// The object with these sections: header, section bytes, section headers.
pub fn object(class: Class, sections: &[Section]) -> Vec<u8> {
    object_with(class, RVC, sections)
}

/// The same with these e_flags.
pub fn object_with(class: Class, flags: u32, sections: &[Section]) -> Vec<u8> {
    let mut file = vec![0; header_size(class)];
    let mut table = Vec::new();
    for section in sections {
        let contents = section.contents(class);
        table.extend(section.header(class, file.len() as u64, contents.len() as u64));
        file.extend(contents);
    }
    let header = header(class, flags, file.len() as u64, sections.len() as u16);
    file[..header.len()].copy_from_slice(&header);
    file.extend(table);
    file
}

fn header(class: Class, flags: u32, section_table: u64, section_count: u16) -> Vec<u8> {
    let number = |number| number_of(class, number);
    let half = |half: u16| half.to_le_bytes().to_vec();
    let class_byte = match class {
        Class::Elf32 => 1,
        Class::Elf64 => 2,
    };
    let mut ident = vec![0x7F, b'E', b'L', b'F', class_byte, 1, 1];
    ident.resize(16, 0);
    [
        ident,
        half(1),          // e_type
        half(243),        // e_machine
        vec![1, 0, 0, 0], // e_version
        number(0),        // e_entry
        number(0),        // e_phoff
        number(section_table),
        flags.to_le_bytes().to_vec(),
        half(header_size(class) as u16),
        half(0), // e_phentsize
        half(0), // e_phnum
        half(section_size(class) as u16),
        half(section_count),
        half(0), // e_shstrndx
    ]
    .concat()
}

/// The order for an object of this class.
pub fn order(
    class: Class,
    base: u64,
    placements: &[(u32, u64)],
    external_values: &[(u32, u64)],
) -> Vec<u8> {
    let mut order = 1_u32.to_le_bytes().to_vec();
    order.extend(number_of(class, base));
    for list in [placements, external_values] {
        order.extend((list.len() as u32).to_le_bytes());
        for (index, number) in list {
            order.extend(index.to_le_bytes());
            order.extend(number_of(class, *number));
        }
    }
    order
}

/// A sound ledger in which no fit stands, with room for old bytes.
pub fn journal(room: usize) -> Vec<u8> {
    vec![0; 136 + room]
}

/// A whole fit that a test changes at one point.
#[derive(Clone, Debug)]
pub struct Fit {
    pub class: Class,
    /// e_flags.
    pub flags: u32,
    pub sections: Vec<Section>,
    pub base: u64,
    pub placements: Vec<(u32, u64)>,
    pub external_values: Vec<(u32, u64)>,
    pub image: Vec<u8>,
    pub journal: Vec<u8>,
}

impl Fit {
    /// One loaded section 1 at `address`, a symbol table 2 that holds symbol 0
    /// and these, and a RELA section 3 with these relocations. The image has
    /// 64 bytes before the section and 64 behind it. It is of class 1.
    pub fn code(address: u64, bytes: &[u8], symbols: &[Symbol], list: &[Relocation]) -> Fit {
        let all_symbols = [&[Symbol::default()], symbols].concat();
        Fit {
            class: Class::Elf32,
            flags: RVC,
            sections: vec![
                Section::default(),
                Section::loaded(1, bytes),
                Section::symbols(&all_symbols),
                Section::relocations(1, 2, list),
            ],
            base: address.saturating_sub(64),
            placements: vec![(1, address)],
            external_values: Vec::new(),
            image: vec![0x5A; 128 + bytes.len()],
            journal: journal(bytes.len()),
        }
    }

    /// Sections with their addresses, counted from 1, and an image of this
    /// length. It is of class 1.
    pub fn placed(base: u64, image_length: usize, sections: &[(Section, u64)]) -> Fit {
        let numbered = sections.iter().zip(1..);
        let placements = numbered.map(|((_, address), index)| (index, *address));
        let mut all = vec![Section::default()];
        all.extend(sections.iter().map(|(section, _)| section.clone()));
        Fit {
            class: Class::Elf32,
            flags: RVC,
            sections: all,
            base,
            placements: placements.collect(),
            external_values: Vec::new(),
            image: vec![0x5A; image_length],
            journal: journal(image_length),
        }
    }

    /// The same of this class.
    pub fn of(self, class: Class) -> Fit {
        Fit { class, ..self }
    }

    /// The same with these e_flags.
    pub fn with_flags(self, flags: u32) -> Fit {
        Fit { flags, ..self }
    }

    pub fn object(&self) -> Vec<u8> {
        object_with(self.class, self.flags, &self.sections)
    }

    pub fn order(&self) -> Vec<u8> {
        let (placements, values) = (&self.placements, &self.external_values);
        order(self.class, self.base, placements, values)
    }

    /// The answer, and image and ledger after the call.
    pub fn run(&self) -> (Answer, Vec<u8>, Vec<u8>) {
        let (mut image, mut journal) = (self.image.clone(), self.journal.clone());
        let answer = install(&self.object(), &self.order(), &mut image, &mut journal);
        (answer, image, journal)
    }

    /// The answer's numbers. A refusal must change nothing.
    pub fn answer(&self) -> Numbers {
        let (answer, image, journal) = self.run();
        if answer != Answer::DONE {
            assert_eq!(image, self.image, "image after {answer:?}");
            assert_eq!(journal, self.journal, "ledger after {answer:?}");
        }
        numbers(answer)
    }

    /// The answer's numbers, which are the same in both classes.
    pub fn answer_of_both(&self) -> Numbers {
        let [first, second] = Class::ALL.map(|class| self.clone().of(class).answer());
        assert_eq!(first, second, "class 1 and class 2");
        first
    }

    /// The bytes laid for section 1 of a done fit, which are the same in both
    /// classes.
    pub fn laid_of_both(&self) -> Vec<u8> {
        let [first, second] = Class::ALL.map(|class| self.clone().of(class).laid());
        assert_eq!(first, second, "class 1 and class 2");
        first
    }

    /// The bytes laid for section 1 of a done fit.
    pub fn laid(&self) -> Vec<u8> {
        let (answer, image, _) = self.run();
        assert_eq!(answer, Answer::DONE);
        let start = (self.placements[0].1 - self.base) as usize;
        image[start..start + self.sections[1].bytes.len()].to_vec()
    }
}

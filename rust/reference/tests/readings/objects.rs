//! A sound object, and a table of its changes: each sentence of checks 4 and 5
//! just kept and just broken, with the answer.

use crate::{Case, Question};
use testing::build::*;

/// Where the sound object has what.
const CODE: usize = 1;
const DATA: usize = 2;
const ROOM: usize = 3;
const SYMBOLS: usize = 4;
const CODE_RELA: usize = 5;
const DATA_RELA: usize = 6;
const NAMES: usize = 7;
const NAMES_REL: usize = 8;
const NOTE: usize = 9;
/// How many sections it has.
const COUNT: u64 = 10;

/// The fields of a section header, by their places in class 1.
const KIND: usize = 4;
const FLAGS: usize = 8;
const OFFSET: usize = 16;
const SIZE: usize = 20;
const LINK: usize = 24;
const INFO: usize = 28;
const ALIGNMENT: usize = 32;
const ENTRY_SIZE: usize = 36;

/// The fields of the header whose places differ between the classes, by those
/// in class 1.
const E_SHOFF: usize = 32;
const E_FLAGS: usize = 36;
const E_EHSIZE: usize = 40;
const E_PHENTSIZE: usize = 42;
const E_SHENTSIZE: usize = 46;
const E_SHNUM: usize = 48;
const E_SHSTRNDX: usize = 50;

/// All bits of a number, of 32 or of 64 bits.
const ONES: u64 = u64::MAX;

const DONE: (u32, u32) = (0, 0);

/// An object's bytes, to be changed at places that have names.
struct Edited {
    class: Class,
    bytes: Vec<u8>,
}

impl Edited {
    fn is_64(&self) -> bool {
        self.class == Class::Elf64
    }

    /// The length of the header, of a section header, of a symbol and of a
    /// relocation.
    fn header_size(&self) -> u64 {
        header_size(self.class) as u64
    }

    fn row_size(&self) -> u64 {
        section_size(self.class) as u64
    }

    fn symbol_size(&self) -> u64 {
        symbol_size(self.class)
    }

    fn rela_size(&self) -> u64 {
        relocation_size(self.class)
    }

    /// Where a field of the header is.
    fn own(&self, field: usize) -> usize {
        match field {
            E_SHOFF if self.is_64() => 40,
            E_FLAGS.. if self.is_64() => field + 12,
            _ => field,
        }
    }

    fn put(&mut self, at: usize, bytes: &[u8]) {
        self.bytes[at..at + bytes.len()].copy_from_slice(bytes);
    }

    fn byte(&mut self, at: usize, value: u8) {
        self.put(at, &[value]);
    }

    /// A field of the header that has two bytes.
    fn half(&mut self, field: usize, value: u16) {
        self.put(self.own(field), &value.to_le_bytes());
    }

    /// A field of the header that has four bytes.
    fn word(&mut self, field: usize, value: u32) {
        self.put(self.own(field), &value.to_le_bytes());
    }

    fn read(&self, at: usize) -> u64 {
        self.class.number_at(&self.bytes, at).expect("inside")
    }

    /// Where the section headers begin.
    fn table(&self) -> u64 {
        self.read(self.own(E_SHOFF))
    }

    fn set_table(&mut self, offset: u64) {
        self.put(self.own(E_SHOFF), &number_of(self.class, offset));
    }

    fn length(&self) -> u64 {
        self.bytes.len() as u64
    }

    /// Cuts the file, or fills it up with zeros.
    fn resize(&mut self, length: u64) {
        self.bytes.resize(length as usize, 0);
    }

    /// Where a field of a section header is, and whether it is as long as an
    /// address.
    fn at(&self, section: usize, field: usize) -> (usize, bool) {
        let (place, is_long) = match (self.class, field) {
            (_, KIND) => (4, false),
            (_, FLAGS) => (8, true),
            (Class::Elf32, LINK | INFO) => (field, false),
            (Class::Elf32, _) => (field, true),
            (Class::Elf64, OFFSET) => (24, true),
            (Class::Elf64, SIZE) => (32, true),
            (Class::Elf64, LINK) => (40, false),
            (Class::Elf64, INFO) => (44, false),
            (Class::Elf64, ALIGNMENT) => (48, true),
            (Class::Elf64, _) => (56, true),
        };
        let header = self.table() + self.row_size() * section as u64;
        (header as usize + place, is_long)
    }

    /// A field that is as long as an address.
    fn get(&self, section: usize, field: usize) -> u64 {
        self.read(self.at(section, field).0)
    }

    fn set(&mut self, section: usize, field: usize, value: u64) {
        let (at, is_long) = self.at(section, field);
        match is_long {
            true => self.put(at, &number_of(self.class, value)),
            false => self.put(at, &number_of(Class::Elf32, value)),
        }
    }

    fn place(&mut self, section: usize, offset: u64, size: u64) {
        self.set(section, OFFSET, offset);
        self.set(section, SIZE, size);
    }

    /// Makes a section end so many bytes behind the file, or before it.
    fn end_at(&mut self, section: usize, past: i64) {
        let end = self.length().wrapping_add_signed(past);
        self.set(section, SIZE, end - self.get(section, OFFSET));
    }

    /// Bytes behind the section headers that look like one more, of an
    /// allocated section.
    fn follow(&mut self) {
        self.resize(self.length() + self.row_size());
        self.set(COUNT as usize, KIND, u64::from(PROGBITS));
        self.set(COUNT as usize, FLAGS, ALLOCATED);
    }

    /// Lets a section hold so many entries of zeros, in a file of 1,048,576
    /// bytes.
    fn fill(&mut self, section: usize, entries: u64) {
        self.resize(1_048_576);
        let size = entries * self.get(section, ENTRY_SIZE);
        self.place(section, 8_192, size);
    }
}

/// A sound object: code, data, room, symbols, relocations of code and data,
/// names, a REL for the names, which does not count, and a note.
fn sound(class: Class) -> Edited {
    let symbols = [
        Symbol::default(),
        Symbol::new(GLOBAL, 1, 8),
        Symbol::new(WEAK | 2, 0, ONES),
        Symbol::new(0xFF, ABSOLUTE, 0x8000_0000_8000_0000),
    ];
    let relocations = [
        Relocation::new(0, 26, 1, -1),
        Relocation::new(4, 27, u32::MAX, 0x8000_0000_8000_0000_u64 as i64),
        Relocation::new(8, 255, 3, 0x7FFF_FFFF_7FFF_FFFF),
    ];
    let plain = |kind: u32, bytes: &[u8]| Section {
        kind,
        bytes: bytes.to_vec(),
        ..Section::default()
    };
    let names_rel = Section {
        info: NAMES as u32,
        entry_size: Some(8),
        ..plain(REL, &[9; 8])
    };
    let sections = [
        Section::default(),
        Section::loaded(4, &[0x13; 16]),
        Section::loaded(1, b"eight by"),
        Section::nobits(8, 64),
        Section::symbols(&symbols),
        Section::relocations(CODE as u32, SYMBOLS as u32, &relocations),
        Section::relocations(DATA as u32, SYMBOLS as u32, &relocations[1..2]),
        plain(3, b"\0names\0"),
        names_rel,
        plain(7, b"note"),
    ];
    Edited {
        class,
        bytes: object(class, &sections),
    }
}

/// The sound object with the section headers right behind the header.
fn table_first(class: Class) -> Edited {
    let mut object = sound(class);
    let (table, header) = (object.table() as usize, object.header_size() as usize);
    for section in 1..COUNT as usize {
        let offset = object.get(section, OFFSET);
        object.set(section, OFFSET, offset + object.row_size() * COUNT);
    }
    object.set_table(header as u64);
    let file = object.bytes;
    Edited {
        class,
        bytes: [&file[..header], &file[table..], &file[header..table]].concat(),
    }
}

const OTHER_TYPES: [u64; 11] = [
    3,
    5,
    6,
    7,
    10,
    11,
    14,
    18,
    0x6FFF_FFF5,
    0x7000_0003,
    0xFFFF_FFFF,
];

/// Its name, its number and place, and what it does to the sound object.
type Edit = (&'static str, (u32, u32), fn(&mut Edited));

const HEADER: &[Edit] = &[
    ("nothing changed", DONE, |_| ()),
    ("magic 7E", (4, 0), |o| o.byte(0, 0x7E)),
    ("magic 80", (4, 0), |o| o.byte(0, 0x80)),
    ("magic 44", (4, 0), |o| o.byte(1, 0x44)),
    ("magic 4D", (4, 0), |o| o.byte(2, 0x4D)),
    ("magic 47", (4, 0), |o| o.byte(3, 0x47)),
    ("class 0", (4, 0), |o| o.byte(4, 0)),
    ("class 3", (4, 0), |o| o.byte(4, 3)),
    ("class 255", (4, 0), |o| o.byte(4, 255)),
    ("the other class", (4, 0), |o| o.byte(4, o.bytes[4] ^ 3)),
    ("data 0", (4, 0), |o| o.byte(5, 0)),
    ("data 2", (4, 0), |o| o.byte(5, 2)),
    ("ident version 0", (4, 0), |o| o.byte(6, 0)),
    ("ident version 2", (4, 0), |o| o.byte(6, 2)),
    ("e_type 0", (4, 0), |o| o.half(16, 0)),
    ("e_type 2", (4, 0), |o| o.half(16, 2)),
    ("e_type 257", (4, 0), |o| o.half(16, 257)),
    ("e_machine 242", (4, 0), |o| o.half(18, 242)),
    ("e_machine 244", (4, 0), |o| o.half(18, 244)),
    ("e_machine 499", (4, 0), |o| o.half(18, 499)),
    ("e_version 0", (4, 0), |o| o.word(20, 0)),
    ("e_version 2", (4, 0), |o| o.word(20, 2)),
    ("e_version 65,537", (4, 0), |o| o.word(20, 65_537)),
    ("e_version 2^24 + 1", (4, 0), |o| o.word(20, (1 << 24) + 1)),
    ("e_ehsize 51 or 63", (4, 0), |o| {
        o.half(E_EHSIZE, o.header_size() as u16 - 1)
    }),
    ("e_ehsize 53 or 65", (4, 0), |o| {
        o.half(E_EHSIZE, o.header_size() as u16 + 1)
    }),
    ("e_ehsize 308 or 320", (4, 0), |o| {
        o.half(E_EHSIZE, o.header_size() as u16 + 256)
    }),
    ("e_ehsize of the other class", (4, 0), |o| {
        o.half(E_EHSIZE, 116 - o.header_size() as u16)
    }),
    ("the rest of the ident", DONE, |o| o.put(7, &[0xFF; 9])),
    ("e_entry, e_phoff", DONE, |o| o.put(24, &[0xFF; 8])),
    ("e_flags 0", DONE, |o| o.word(E_FLAGS, 0)),
    ("e_flags 1", DONE, |o| o.word(E_FLAGS, 1)),
    ("e_flags 2^32 - 1", DONE, |o| o.word(E_FLAGS, u32::MAX)),
    ("e_phentsize, e_phnum", DONE, |o| {
        o.put(o.own(E_PHENTSIZE), &[0xFF; 4])
    }),
    ("e_shstrndx", DONE, |o| o.half(E_SHSTRNDX, 0xFFFF)),
    ("no byte", (4, 0), |o| o.resize(0)),
    ("51 bytes", (4, 0), |o| o.resize(51)),
    ("a byte less than the header", (4, 0), |o| {
        o.resize(o.header_size() - 1)
    }),
    ("as long as the header", (5, 0), |o| {
        o.resize(o.header_size())
    }),
    ("65,537 bytes", DONE, |o| o.resize(65_537)),
    ("1,048,575 bytes", DONE, |o| o.resize(1_048_575)),
    ("1,048,576 bytes", DONE, |o| o.resize(1_048_576)),
    ("1,048,577 bytes", (4, 0), |o| o.resize(1_048_577)),
    ("1,048,640 bytes", (4, 0), |o| o.resize(1_048_640)),
];

const TABLE: &[Edit] = &[
    ("e_shentsize one less", (5, 0), |o| {
        o.half(E_SHENTSIZE, o.row_size() as u16 - 1)
    }),
    ("e_shentsize one more", (5, 0), |o| {
        o.half(E_SHENTSIZE, o.row_size() as u16 + 1)
    }),
    ("e_shentsize 256 more", (5, 0), |o| {
        o.half(E_SHENTSIZE, o.row_size() as u16 + 256)
    }),
    ("e_shentsize of the other class", (5, 0), |o| {
        o.half(E_SHENTSIZE, 104 - o.row_size() as u16)
    }),
    ("0 sections", (5, 0), |o| o.half(E_SHNUM, 0)),
    ("1 section", DONE, |o| o.half(E_SHNUM, 1)),
    ("a section past the file", (5, 0), |o| o.half(E_SHNUM, 11)),
    ("127 sections", DONE, |o| {
        o.resize(1_048_576);
        o.half(E_SHNUM, 127);
    }),
    ("128 sections", DONE, |o| {
        o.resize(1_048_576);
        o.half(E_SHNUM, 128);
    }),
    ("129 sections", (5, 0), |o| {
        o.resize(1_048_576);
        o.half(E_SHNUM, 129);
    }),
    ("266 sections", (5, 0), |o| {
        o.resize(1_048_576);
        o.half(E_SHNUM, 266);
    }),
    ("65,535 sections", (5, 0), |o| {
        o.resize(1_048_576);
        o.half(E_SHNUM, 65_535);
    }),
    ("table one byte past the file", (5, 0), |o| {
        o.resize(o.length() - 1)
    }),
    ("table starts one byte higher", (5, 0), |o| {
        o.set_table(o.table() + 1)
    }),
    ("table ends at the end, zeros", DONE, |o| {
        o.resize(1_048_576);
        o.set_table(1_048_576 - 10 * o.row_size());
    }),
    ("table ends past the end, zeros", (5, 0), |o| {
        o.resize(1_048_576);
        o.set_table(1_048_577 - 10 * o.row_size());
    }),
    ("table ends at 2^32 or 2^64", (5, 0), |o| {
        o.set_table(0_u64.wrapping_sub(10 * o.row_size()))
    }),
    ("table ends past 2^32 or 2^64", (5, 0), |o| {
        o.set_table(0_u64.wrapping_sub(300))
    }),
    ("e_shoff of ones", (5, 0), |o| o.set_table(ONES)),
    ("section 0 PROGBITS", (5, 0), |o| o.set(0, KIND, 1)),
    ("section 0 NOBITS", (5, 0), |o| o.set(0, KIND, 8)),
    ("section 0 of type 256", (5, 0), |o| o.set(0, KIND, 256)),
    ("section 0 with all else set", DONE, |o| {
        for field in [FLAGS, OFFSET, SIZE, LINK, INFO, ALIGNMENT, ENTRY_SIZE] {
            o.set(0, field, ONES);
        }
    }),
];

/// What only class 1 has.
const OF_CLASS_1: &[Edit] = &[
    ("52 bytes with a NULL header in them", DONE, |o| {
        o.resize(52);
        o.set_table(8);
        o.half(E_SHNUM, 1);
    }),
    ("52 bytes, the header at the end", (5, 0), |o| {
        o.resize(52);
        o.set_table(12);
        o.half(E_SHNUM, 1);
    }),
    ("52 bytes, the header one byte past", (5, 0), |o| {
        o.resize(52);
        o.set_table(13);
        o.half(E_SHNUM, 1);
    }),
];

/// What only class 2 has: bits above the 32nd.
const OF_CLASS_2: &[Edit] = &[
    ("64 bytes, which are a row too", (5, 0), |o| {
        o.resize(64);
        o.set_table(0);
        o.half(E_SHNUM, 1);
    }),
    ("e_shoff 2^32 higher", (5, 0), |o| {
        o.set_table(o.table() + (1 << 32))
    }),
    ("e_shoff 2^63 higher", (5, 0), |o| {
        o.set_table(o.table() + (1 << 63))
    }),
    ("offset 2^32 higher", (5, 1), |o| {
        o.place(CODE, (1 << 32) + 64, 16)
    }),
    ("size 2^32 higher", (5, 1), |o| {
        o.set(CODE, SIZE, (1 << 32) + 16)
    }),
    ("offset + size wraps to 0", (5, 1), |o| {
        o.place(CODE, 64, 0_u64.wrapping_sub(64))
    }),
    ("offset + size wraps into the file", (5, 1), |o| {
        o.place(CODE, ONES, 65)
    }),
    ("alignment 2^32", DONE, |o| o.set(CODE, ALIGNMENT, 1 << 32)),
    ("alignment 2^63", DONE, |o| o.set(CODE, ALIGNMENT, 1 << 63)),
    ("alignment 2^32 + 1", (5, 1), |o| {
        o.set(CODE, ALIGNMENT, (1 << 32) + 1)
    }),
    ("alignment 2^63 + 2^31", (5, 1), |o| {
        o.set(CODE, ALIGNMENT, (1 << 63) + (1 << 31))
    }),
    ("alignment 2^63 + 2^62", (5, 1), |o| {
        o.set(CODE, ALIGNMENT, (1 << 63) + (1 << 62))
    }),
    ("only high flags", DONE, |o| o.set(CODE, FLAGS, 2 << 32)),
    ("symbols of 2^32 + 24 bytes", (5, 4), |o| {
        o.set(SYMBOLS, ENTRY_SIZE, (1 << 32) + 24)
    }),
    ("records of 2^32 + 24 bytes", (5, 5), |o| {
        o.set(CODE_RELA, ENTRY_SIZE, (1 << 32) + 24)
    }),
    ("symbols of 16 bytes", (5, 4), |o| {
        o.set(SYMBOLS, ENTRY_SIZE, 16)
    }),
    ("records of 12 bytes", (5, 5), |o| {
        o.set(CODE_RELA, ENTRY_SIZE, 12)
    }),
    ("20,000 records up to the end", DONE, |o| {
        o.fill(CODE_RELA, 20_000);
        o.resize(8_192 + 24 * 20_000);
    }),
    ("20,000 records past the end", (5, 5), |o| {
        o.fill(CODE_RELA, 20_000);
        o.resize(8_192 + 24 * 20_000 - 1);
    }),
    ("20,000 and 12,768", DONE, |o| {
        o.fill(CODE_RELA, 20_000);
        o.fill(DATA_RELA, 12_768);
    }),
    ("20,000 and 12,769", (5, 6), |o| {
        o.fill(CODE_RELA, 20_000);
        o.fill(DATA_RELA, 12_769);
    }),
];

const PLACES: &[Edit] = &[
    ("ends before the end", DONE, |o| o.end_at(CODE, -1)),
    ("ends at the end", DONE, |o| o.end_at(CODE, 0)),
    ("ends past the end", (5, 1), |o| o.end_at(CODE, 1)),
    ("empty at the end", DONE, |o| o.place(CODE, o.length(), 0)),
    ("empty past the end", (5, 1), |o| {
        o.place(CODE, o.length() + 1, 0)
    }),
    ("ends at 2^32 or 2^64", (5, 1), |o| o.place(CODE, ONES, 1)),
    ("ends 16 past it", (5, 1), |o| {
        o.place(CODE, ONES - 15, 0x20)
    }),
    ("of all bytes but one", (5, 1), |o| o.place(CODE, 1, ONES)),
    ("ends at twice all but one", (5, 1), |o| {
        o.place(CODE, ONES, ONES)
    }),
    ("the whole file", DONE, |o| o.place(NAMES, 0, o.length())),
    ("NULL anywhere", DONE, |o| {
        o.set(NOTE, KIND, 0);
        o.place(NOTE, ONES, ONES);
    }),
    ("NOBITS anywhere", DONE, |o| o.place(ROOM, ONES, ONES)),
    ("not allocated", (5, 7), |o| o.end_at(NAMES, 1)),
    ("a note", (5, 9), |o| o.end_at(NOTE, 1)),
    ("a SYMTAB", (5, 4), |o| {
        o.place(SYMBOLS, o.length() + 1 - o.symbol_size(), o.symbol_size())
    }),
    ("a SYMTAB at the end", DONE, |o| {
        o.place(SYMBOLS, o.length() - o.symbol_size(), o.symbol_size())
    }),
    ("a RELA", (5, 5), |o| {
        o.place(CODE_RELA, o.length() + 1 - o.rela_size(), o.rela_size())
    }),
    ("a RELA at the end", DONE, |o| {
        o.place(CODE_RELA, o.length() - o.rela_size(), o.rela_size())
    }),
    ("a REL that does not count", (5, 8), |o| {
        o.end_at(NAMES_REL, 1)
    }),
    ("a RELA that does not count", (5, 6), |o| {
        o.set(DATA_RELA, INFO, 0);
        o.end_at(DATA_RELA, 1);
    }),
    ("of type 0x70000003", (5, 9), |o| {
        o.set(NOTE, KIND, 0x7000_0003);
        o.end_at(NOTE, 1);
    }),
];

const ALLOCATED_SECTIONS: &[Edit] = &[
    ("alignment 0", DONE, |o| o.set(CODE, ALIGNMENT, 0)),
    ("alignment 1", DONE, |o| o.set(CODE, ALIGNMENT, 1)),
    ("alignment 2", DONE, |o| o.set(CODE, ALIGNMENT, 2)),
    ("alignment 3", (5, 1), |o| o.set(CODE, ALIGNMENT, 3)),
    ("alignment 6", (5, 1), |o| o.set(CODE, ALIGNMENT, 6)),
    ("alignment 2^16", DONE, |o| o.set(CODE, ALIGNMENT, 1 << 16)),
    ("alignment 2^31", DONE, |o| o.set(CODE, ALIGNMENT, 1 << 31)),
    ("alignment 2^31 + 1", (5, 1), |o| {
        o.set(CODE, ALIGNMENT, (1 << 31) + 1)
    }),
    ("alignment of ones", (5, 1), |o| {
        o.set(CODE, ALIGNMENT, ONES)
    }),
    ("alignment 3 of NOBITS", (5, 3), |o| {
        o.set(ROOM, ALIGNMENT, 3)
    }),
    ("alignment 3 of an allocated note", (5, 9), |o| {
        o.set(NOTE, FLAGS, 2);
        o.set(NOTE, ALIGNMENT, 3);
    }),
    ("alignment 3, not allocated", DONE, |o| {
        o.set(NAMES, ALIGNMENT, 3)
    }),
    ("alignment 3 of an allocated NULL", DONE, |o| {
        o.set(NOTE, KIND, 0);
        o.set(NOTE, FLAGS, 2);
        o.set(NOTE, ALIGNMENT, 3);
    }),
    ("flags without bit 2", DONE, |o| o.set(CODE, FLAGS, !2)),
    ("flags with all bits", DONE, |o| o.set(CODE, FLAGS, ONES)),
    ("flags 1 and 4", DONE, |o| o.set(NAMES_REL, FLAGS, 5)),
    ("an allocated SYMTAB", (5, 4), |o| o.set(SYMBOLS, FLAGS, 2)),
    ("an allocated RELA", (5, 5), |o| o.set(CODE_RELA, FLAGS, 2)),
    ("an allocated REL", (5, 8), |o| o.set(NAMES_REL, FLAGS, 2)),
    ("an allocated RELA for itself", (5, 5), |o| {
        o.set(CODE_RELA, FLAGS, 2);
        o.set(CODE_RELA, INFO, CODE_RELA as u64);
    }),
    ("allocated names", DONE, |o| {
        o.set(NAMES_REL, INFO, 0);
        o.set(NAMES, FLAGS, 2);
    }),
];

const SYMTABS: &[Edit] = &[
    ("entry size one less", (5, 4), |o| {
        o.set(SYMBOLS, ENTRY_SIZE, o.symbol_size() - 1)
    }),
    ("entry size one more", (5, 4), |o| {
        o.set(SYMBOLS, ENTRY_SIZE, o.symbol_size() + 1)
    }),
    ("entry size 0", (5, 4), |o| o.set(SYMBOLS, ENTRY_SIZE, 0)),
    ("entry size 256 more", (5, 4), |o| {
        o.set(SYMBOLS, ENTRY_SIZE, o.symbol_size() + 256)
    }),
    ("size 0", DONE, |o| o.set(SYMBOLS, SIZE, 0)),
    ("a byte less than one", (5, 4), |o| {
        o.set(SYMBOLS, SIZE, o.symbol_size() - 1)
    }),
    ("a byte less than four", (5, 4), |o| {
        o.set(SYMBOLS, SIZE, 4 * o.symbol_size() - 1)
    }),
    ("a byte more than four", (5, 4), |o| {
        o.set(SYMBOLS, SIZE, 4 * o.symbol_size() + 1)
    }),
    ("eight bytes more than four", (5, 4), |o| {
        o.set(SYMBOLS, SIZE, 4 * o.symbol_size() + 8)
    }),
    ("five", DONE, |o| o.set(SYMBOLS, SIZE, 5 * o.symbol_size())),
    ("8,191 symbols", DONE, |o| o.fill(SYMBOLS, 8_191)),
    ("8,192 symbols", DONE, |o| o.fill(SYMBOLS, 8_192)),
    ("8,193 symbols", (5, 4), |o| o.fill(SYMBOLS, 8_193)),
    ("16,384 symbols", (5, 4), |o| o.fill(SYMBOLS, 16_384)),
    ("two SYMTABs", (5, 9), |o| {
        o.set(NOTE, KIND, 2);
        o.set(NOTE, ENTRY_SIZE, o.symbol_size());
        o.set(NOTE, SIZE, 0);
    }),
    ("three SYMTABs", (5, 7), |o| {
        for section in [NAMES, NOTE] {
            o.set(section, KIND, 2);
            o.set(section, ENTRY_SIZE, o.symbol_size());
            o.set(section, SIZE, 0);
        }
    }),
    ("a SYMTAB below", (5, 4), |o| {
        o.set(CODE, KIND, 2);
        o.set(CODE, FLAGS, 0);
        o.set(CODE, ENTRY_SIZE, o.symbol_size());
        o.set(CODE, SIZE, 0);
    }),
    ("a broken SYMTAB below", (5, 1), |o| {
        o.set(CODE, KIND, 2);
        o.set(CODE, FLAGS, 0);
    }),
    ("no SYMTAB, no counting RELA", DONE, |o| {
        o.set(SYMBOLS, KIND, 1);
        o.set(CODE_RELA, INFO, 0);
        o.set(DATA_RELA, INFO, 0);
    }),
    ("type 65,538", (5, 5), |o| o.set(SYMBOLS, KIND, 65_538)),
];

const RELAS: &[Edit] = &[
    ("REL of code", (5, 8), |o| {
        o.set(NAMES_REL, INFO, CODE as u64)
    }),
    ("REL of room", (5, 8), |o| {
        o.set(NAMES_REL, INFO, ROOM as u64)
    }),
    ("REL of itself", DONE, |o| o.set(NAMES_REL, INFO, 8)),
    ("REL of the last", DONE, |o| o.set(NAMES_REL, INFO, 9)),
    ("REL past the last", DONE, |o| o.set(NAMES_REL, INFO, COUNT)),
    ("REL of allocated names", (5, 8), |o| o.set(NAMES, FLAGS, 2)),
    ("RELA made REL", (5, 5), |o| o.set(CODE_RELA, KIND, 9)),
    ("type 260", DONE, |o| o.set(CODE_RELA, KIND, 260)),
    ("type 265", DONE, |o| o.set(CODE_RELA, KIND, 265)),
    ("entry size one less", (5, 5), |o| {
        o.set(CODE_RELA, ENTRY_SIZE, o.rela_size() - 1)
    }),
    ("entry size one more", (5, 5), |o| {
        o.set(CODE_RELA, ENTRY_SIZE, o.rela_size() + 1)
    }),
    ("entry size 0", (5, 5), |o| o.set(CODE_RELA, ENTRY_SIZE, 0)),
    ("size 0", DONE, |o| o.set(CODE_RELA, SIZE, 0)),
    ("a byte less than one", (5, 5), |o| {
        o.set(CODE_RELA, SIZE, o.rela_size() - 1)
    }),
    ("four bytes more than two", (5, 5), |o| {
        o.set(CODE_RELA, SIZE, 2 * o.rela_size() + 4)
    }),
    ("two and a half", (5, 5), |o| {
        o.set(CODE_RELA, SIZE, 5 * o.rela_size() / 2)
    }),
    ("a byte less than three", (5, 5), |o| {
        o.set(CODE_RELA, SIZE, 3 * o.rela_size() - 1)
    }),
    ("a byte more than three", (5, 5), |o| {
        o.set(CODE_RELA, SIZE, 3 * o.rela_size() + 1)
    }),
    ("a byte less in the second", (5, 6), |o| {
        o.set(DATA_RELA, SIZE, o.rela_size() - 1)
    }),
    ("link 0", (5, 5), |o| o.set(CODE_RELA, LINK, 0)),
    ("link 3", (5, 5), |o| o.set(CODE_RELA, LINK, 3)),
    ("link 5", (5, 5), |o| o.set(CODE_RELA, LINK, 5)),
    ("link past the last", (5, 5), |o| {
        o.set(CODE_RELA, LINK, COUNT)
    }),
    ("link of ones", (5, 5), |o| o.set(CODE_RELA, LINK, ONES)),
    ("link 65,540", (5, 5), |o| o.set(CODE_RELA, LINK, 65_540)),
    ("no SYMTAB", (5, 5), |o| o.set(SYMBOLS, KIND, 1)),
    ("no SYMTAB, link past the last", (5, 5), |o| {
        o.set(SYMBOLS, KIND, 1);
        o.set(CODE_RELA, LINK, COUNT);
    }),
    ("SYMTAB above", (5, 6), |o| {
        o.set(SYMBOLS, KIND, 1);
        o.set(NOTE, KIND, 2);
        o.set(NOTE, ENTRY_SIZE, o.symbol_size());
        o.set(NOTE, SIZE, 0);
        o.set(CODE_RELA, LINK, NOTE as u64);
    }),
    ("two SYMTABs, link to the higher", (5, 5), |o| {
        o.set(NOTE, KIND, 2);
        o.set(CODE_RELA, LINK, NOTE as u64);
    }),
    ("target NOBITS", (5, 5), |o| {
        o.set(CODE_RELA, INFO, ROOM as u64)
    }),
    ("target made NOBITS", (5, 6), |o| o.set(DATA, KIND, 8)),
    ("target of another type", DONE, |o| o.set(CODE, KIND, 14)),
    ("target of a type of ones", DONE, |o| {
        o.set(CODE, KIND, ONES)
    }),
    ("target made NULL", DONE, |o| o.set(CODE, KIND, 0)),
    ("target 0", DONE, |o| o.set(CODE_RELA, INFO, 0)),
    ("target 0 with flag 2", DONE, |o| {
        o.set(0, FLAGS, 2);
        o.set(CODE_RELA, INFO, 0);
    }),
    ("target itself", DONE, |o| o.set(CODE_RELA, INFO, 5)),
    ("target not allocated", DONE, |o| o.set(CODE_RELA, INFO, 9)),
    ("target past the last", DONE, |o| {
        o.set(CODE_RELA, INFO, COUNT)
    }),
    ("target 11", DONE, |o| o.set(CODE_RELA, INFO, COUNT + 1)),
    ("target of ones", DONE, |o| o.set(CODE_RELA, INFO, ONES)),
    ("target 65,537", DONE, |o| o.set(CODE_RELA, INFO, 65_537)),
    ("target in what follows the last", DONE, |o| {
        o.follow();
        o.set(CODE_RELA, INFO, COUNT);
        o.set(CODE_RELA, LINK, 0);
    }),
    ("REL in what follows the last", DONE, |o| {
        o.follow();
        o.set(NAMES_REL, INFO, COUNT);
    }),
    ("RELA in what follows the last", DONE, |o| {
        o.follow();
        o.set(COUNT as usize, KIND, 4);
        o.set(COUNT as usize, INFO, CODE as u64);
    }),
    ("SYMTAB in what follows the last", (5, 5), |o| {
        o.follow();
        o.set(SYMBOLS, KIND, 1);
        o.set(COUNT as usize, KIND, 2);
        o.set(CODE_RELA, LINK, COUNT);
    }),
    ("does not count, all else wrong", DONE, |o| {
        o.set(CODE_RELA, INFO, 9);
        o.set(CODE_RELA, LINK, 9);
        o.set(CODE_RELA, ENTRY_SIZE, 7);
        o.set(CODE_RELA, SIZE, 35);
    }),
    ("the last counts: a broken target", (5, 5), |o| {
        o.set(NOTE, FLAGS, 2);
        o.set(NOTE, ALIGNMENT, 3);
        o.set(CODE_RELA, INFO, NOTE as u64);
        o.set(CODE_RELA, LINK, 0);
    }),
];

const TOGETHER: &[Edit] = &[
    ("two for one target", (5, 6), |o| o.set(DATA_RELA, INFO, 1)),
    ("two for the other", (5, 6), |o| o.set(CODE_RELA, INFO, 2)),
    ("two for one, one is empty", (5, 6), |o| {
        o.set(CODE_RELA, SIZE, 0);
        o.set(DATA_RELA, INFO, 1);
    }),
    ("two for one, which is not allocated", DONE, |o| {
        o.set(CODE_RELA, INFO, 9);
        o.set(DATA_RELA, INFO, 9);
    }),
    ("two for one, one of another type", DONE, |o| {
        o.set(CODE_RELA, KIND, 1);
        o.set(DATA_RELA, INFO, 1);
    }),
    ("32,767 and 1", DONE, |o| o.fill(CODE_RELA, 32_767)),
    ("32,768 and 1", (5, 6), |o| o.fill(CODE_RELA, 32_768)),
    ("32,768 and 0", DONE, |o| {
        o.fill(CODE_RELA, 32_768);
        o.set(DATA_RELA, SIZE, 0);
    }),
    ("32,769 and 0", (5, 5), |o| {
        o.fill(CODE_RELA, 32_769);
        o.set(DATA_RELA, SIZE, 0);
    }),
    ("3 and 32,765", DONE, |o| o.fill(DATA_RELA, 32_765)),
    ("3 and 32,766", (5, 6), |o| o.fill(DATA_RELA, 32_766)),
    ("32,768 that do not count, and 1", DONE, |o| {
        o.fill(CODE_RELA, 32_768);
        o.set(CODE_RELA, INFO, 9);
    }),
    ("32,769 that do not count, and 1", DONE, |o| {
        o.fill(CODE_RELA, 32_769);
        o.set(CODE_RELA, INFO, COUNT);
    }),
    ("16,384 and 16,384", DONE, |o| {
        o.fill(CODE_RELA, 16_384);
        o.fill(DATA_RELA, 16_384);
    }),
    ("16,384 and 16,385", (5, 6), |o| {
        o.fill(CODE_RELA, 16_384);
        o.fill(DATA_RELA, 16_385);
    }),
    ("the lowest of two faults", (5, 4), |o| {
        o.set(SYMBOLS, ENTRY_SIZE, 0);
        o.set(CODE_RELA, ENTRY_SIZE, 0);
    }),
    ("the header before the table", (4, 0), |o| {
        o.half(E_SHENTSIZE, 0);
        o.half(E_EHSIZE, 0);
    }),
    ("the table before section 0", (5, 0), |o| {
        o.half(E_SHENTSIZE, 0);
        o.set(CODE, ALIGNMENT, 3);
    }),
];

/// Types that no rule names, of an allocated section with bytes, of one
/// without, and of one that is not allocated.
fn other_types(class: Class) -> Vec<Case> {
    let case = |kind: u64, section: usize| {
        let mut changed = sound(class);
        changed.set(section, KIND, kind);
        let name = format!("type {kind:#x} of section {section}");
        Case::new(name, Question::Object(changed.bytes), Some(DONE))
    };
    let each = |kind: &u64| [CODE, ROOM, NOTE].map(|section| case(*kind, section));
    OTHER_TYPES.iter().flat_map(each).collect()
}

/// The section headers first, and the file cut at every length: the first
/// section of which a byte is missing is at fault.
fn cut(class: Class) -> Vec<Case> {
    let whole = table_first(class);
    let header = whole.header_size();
    let table_end = header + COUNT * whole.row_size();
    let stated = |length: u64| {
        if length < header {
            return (4, 0);
        }
        if length < table_end {
            return (5, 0);
        }
        let end = |section| whole.get(section, OFFSET) + whole.get(section, SIZE);
        let in_file = |section: &usize| *section != ROOM;
        let mut sections = (1..COUNT as usize).filter(in_file);
        let fault = sections.find(|section| length < end(*section));
        fault.map_or(DONE, |section| (5, section as u32))
    };
    let case = |length: usize| {
        let name = format!("headers first, {length} bytes");
        let question = Question::Object(whole.bytes[..length].to_vec());
        Case::new(name, question, Some(stated(length as u64)))
    };
    (0..=whole.bytes.len()).map(case).collect()
}

pub fn cases(class: Class) -> Vec<Case> {
    let own = match class {
        Class::Elf32 => OF_CLASS_1,
        Class::Elf64 => OF_CLASS_2,
    };
    let tables = [
        HEADER,
        TABLE,
        PLACES,
        ALLOCATED_SECTIONS,
        SYMTABS,
        RELAS,
        TOGETHER,
        own,
    ];
    let edited = tables.concat().into_iter().map(|(name, stated, change)| {
        let mut object = sound(class);
        change(&mut object);
        let name = format!("{name}, {class:?}");
        Case::new(name, Question::Object(object.bytes), Some(stated))
    });
    let others = other_types(class).into_iter().chain(cut(class));
    edited.chain(others).collect()
}

//! Every limit of document 01 and of Tickets 1, 3, 5, 7 and 9, in both classes: at
//! its value, and one past it.

mod jumps;
mod largest;
mod symbols;

use crate::build::*;
use crate::damage::Input;
use crate::{Numbers, DONE};

const WORD: u32 = 1;
const WORD_64: u32 = 2;
const JAL: u32 = 17;
const PCREL_HI20: u32 = 23;
const PCREL_LO12_I: u32 = 24;
const HI20: u32 = 26;
const LO12_I: u32 = 27;
const RVC_JUMP: u32 = 45;
const RELAX: u32 = 51;

/// A fit, and its answer.
#[derive(Clone, Debug)]
pub struct Limit {
    pub name: String,
    pub input: Input,
    pub answer: Numbers,
}

/// The limits of one class, in the making.
struct Limits {
    class: Class,
    /// The last address.
    top: u64,
    found: Vec<Limit>,
}

/// All limits.
pub fn limits() -> Vec<Limit> {
    let of = |class: Class| {
        let mut limits = Limits {
            class,
            top: (class.address_end() - 1) as u64,
            found: Vec::new(),
        };
        limits.lengths();
        limits.counts();
        limits.symbols();
        limits.relocations();
        limits.all_at_once();
        limits.longest_section();
        limits.many_pairs();
        limits.windows();
        limits.placing();
        limits.ledger_room();
        limits.jumps();
        limits.jumps_without_compressed();
        match class {
            Class::Elf32 => limits.of_class_1(),
            Class::Elf64 => limits.of_class_2(),
        }
        limits.found
    };
    Class::ALL.into_iter().flat_map(of).collect()
}

/// One section of eight bytes at 0x1000, with these symbols and relocations.
fn code(symbols: &[Symbol], list: &[Relocation]) -> Fit {
    Fit::code(0x1000, &[0; 8], symbols, list)
}

impl Limits {
    fn add(&mut self, name: impl Into<String>, fit: Fit, answer: Numbers) {
        self.add_input(name, Input::from(&fit.of(self.class)), answer);
    }

    fn add_input(&mut self, name: impl Into<String>, input: Input, answer: Numbers) {
        let name = format!("{}, {:?}", name.into(), self.class);
        self.found.push(Limit {
            name,
            input,
            answer,
        });
    }

    /// A fit whose bytes are changed, or whose lengths are.
    fn changed(
        &mut self,
        name: impl Into<String>,
        fit: &Fit,
        change: impl Fn(&mut Input),
        answer: Numbers,
    ) {
        let mut input = Input::from(&fit.clone().of(self.class));
        change(&mut input);
        self.add_input(name, input, answer);
    }

    /// The class and the lengths of object and image.
    fn lengths(&mut self) {
        let fit = code(&[], &[]);
        // The program takes 65,536.
        for (length, answer) in [(65_537, DONE), (1_048_576, DONE), (1_048_577, (4, 0, 0))] {
            let name = format!("an object of {length} bytes");
            self.changed(name, &fit, |i| i.object.resize(length, 0xEE), answer);
        }
        for (length, answer) in [(65_537, DONE), (1_048_576, DONE), (1_048_577, (3, 0, 0))] {
            let name = format!("an image of {length} bytes");
            self.changed(name, &fit, |i| i.image.resize(length, 0x5A), answer);
        }
        for byte in [0, 3, 255] {
            let name = format!("class {byte}");
            self.changed(name, &fit, |i| i.object[4] = byte, (4, 0, 0));
        }
        self.changed("the other class", &fit, |i| i.object[4] ^= 3, (4, 0, 0));
        let header = header_size(self.class);
        for length in 50..=66 {
            let answer = if length < header {
                (4, 0, 0)
            } else {
                (5, 0, 0)
            };
            let name = format!("{length} bytes of an object");
            self.changed(name, &fit, |i| i.object.truncate(length), answer);
        }
        let malformed = |input: &mut Input| {
            input.order.pop();
        };
        self.changed("a malformed order", &fit, malformed, (2, 0, 0));
        let both = |input: &mut Input| {
            input.order.pop();
            input.object[5] = 2;
        };
        self.changed("a bad header besides", &fit, both, (4, 0, 0));
    }

    /// Sections, placements, symbols and external values.
    fn counts(&mut self) {
        for (count, answer) in [(128, DONE), (129, (5, 0, 0))] {
            let mut fit = code(&[], &[]);
            fit.sections.resize(count, Section::default());
            self.add(format!("{count} sections"), fit, answer);
        }
        // Every section but the first is placed, one behind the other.
        let section = |index: u64| (Section::loaded(1, &[index as u8; 3]), 0x1000 + 3 * index);
        let sections: Vec<(Section, u64)> = (0..127).map(section).collect();
        let fit = Fit::placed(0x1000, 381, &sections);
        self.add("127 placements", fit.clone(), DONE);
        for (count, answer) in [(128, (6, 128, 0)), (129, (2, 0, 0))] {
            let mut fit = fit.clone();
            fit.placements = (1..=count).map(|row| (row, 0x1000)).collect();
            self.add(format!("{count} placements"), fit, answer);
        }
        for (count, answer) in [(8_191, DONE), (8_192, (5, 2, 0))] {
            let undefined = vec![Symbol::new(GLOBAL, 0, 0); count];
            let fit = code(&undefined, &[Relocation::new(0, WORD, 0, 0)]);
            self.add(format!("symbol 0 and {count} more"), fit, answer);
        }
        for symbol in [1, 2, 8_191, 8_192, 0xFF_FFFF] {
            let fit = code(&[], &[Relocation::new(0, WORD, symbol, 0)]);
            self.add(format!("symbol {symbol}"), fit, (10, 0, 1));
        }
        let mut fit = code(&vec![Symbol::new(GLOBAL, 0, 0); 8_191], &[]);
        for (count, answer) in [(8_191, DONE), (8_192, (7, 8_192, 0)), (8_193, (2, 0, 0))] {
            let value = |symbol: u32| (symbol, self.top - u64::from(symbol));
            fit.external_values = (1..=count).map(value).collect();
            self.add(format!("{count} external values"), fit.clone(), answer);
        }
        // Symbol 0 can have none.
        fit.external_values = (0..8_192).map(|symbol| (symbol, 0)).collect();
        self.add("8,192 external values from symbol 0 on", fit, (7, 0, 0));
    }

    /// Two loaded sections of nine and eight bytes with so many markers; the last
    /// of the second is at an offset of its own. Both RELA sections have their
    /// bytes in common.
    fn markers(&self, first: u64, second: u64, last: u64) -> Fit {
        let mut list = vec![Relocation::new(8, RELAX, 0, 0); first.max(second) as usize];
        list[second as usize - 1].offset = last;
        let mut fit = Fit::code(0x1000, &[0; 9], &[], &list);
        fit.journal = journal(64);
        fit.sections.push(Section::loaded(1, &[0; 8]));
        fit.sections.push(Section::relocations(4, 2, &[]));
        fit.placements.push((4, 0x1010));
        let each = relocation_size(self.class);
        // Behind the header, section 1 and one symbol.
        let start = header_size(self.class) as u64 + 9 + symbol_size(self.class);
        fit.sections[3].size = Some(each * first);
        fit.sections[5].offset = Some(start);
        fit.sections[5].size = Some(each * second);
        fit
    }

    fn relocations(&mut self) {
        for (first, second, answer) in [
            (16_384, 16_384, DONE),
            (16_384, 16_385, (5, 5, 0)),
            (16_383, 16_385, DONE),
            (20_800, 11_968, DONE),
            (20_800, 11_969, (5, 5, 0)),
        ] {
            let fit = self.markers(first, second, 8);
            self.add(format!("{first} relocations and {second}"), fit, answer);
        }
        // Inside the first section and past the second.
        let fit = self.markers(16_383, 16_385, 9);
        self.add("the last of 32,768 relocations", fit, (9, 32_767, 0));
        for (count, answer) in [(32_768, DONE), (32_769, (5, 3, 0))] {
            let fit = code(&[], &vec![Relocation::new(8, RELAX, 0, 0); count]);
            self.add(format!("{count} relocations"), fit, answer);
        }
    }

    fn windows(&mut self) {
        let top = self.top;
        for (base, answer) in [
            (top - 1_048_575, DONE),
            (top - 1_048_574, (3, 0, 0)),
            (top, (3, 0, 0)),
        ] {
            let sections = [(Section::loaded(1, &[7; 16]), top - 15)];
            let mut fit = Fit::placed(base, 1_048_576, &sections);
            fit.journal = journal(16);
            self.add(format!("a window from {base:#x} on"), fit, answer);
        }
        for (length, answer) in [(0, (8, 1, 0)), (1, DONE), (2, (3, 0, 0))] {
            let sections = [(Section::loaded(1, &[7]), top)];
            let fit = Fit::placed(top, length, &sections);
            self.add(format!("the last {length} addresses"), fit, answer);
        }
    }

    fn placing(&mut self) {
        let top = self.top;
        for (size, address, answer) in [
            (16, top - 15, DONE),
            (17, top - 15, (8, 1, 0)),
            (top, 1, DONE),
            (top, 2, (8, 1, 0)),
            (top, top, (8, 1, 0)),
            (0, top, DONE),
        ] {
            let sections = [(Section::nobits(1, size), address)];
            let fit = Fit::placed(0x1000, 16, &sections);
            self.add(format!("{size:#x} bytes at {address:#x}"), fit, answer);
        }
        let highest = top / 2 + 1;
        for (alignment, address, answer) in [
            (highest, 0, DONE),
            (highest, highest, DONE),
            (highest, highest / 2, (8, 1, 0)),
            (highest, top, (8, 1, 0)),
            (highest + 1, 0, (5, 1, 0)),
            (highest + highest / 2, 0, (5, 1, 0)),
            (top, 0, (5, 1, 0)),
        ] {
            let sections = [(Section::nobits(alignment, 1), address)];
            let fit = Fit::placed(0x1000, 16, &sections);
            let name = format!("alignment {alignment:#x} at {address:#x}");
            self.add(name, fit, answer);
        }
    }

    fn ledger_room(&mut self) {
        for (room, answer) in [(8, DONE), (7, (15, 0, 0)), (0, (15, 0, 0))] {
            let mut fit = code(&[], &[]);
            fit.journal = journal(room);
            self.add(format!("room for {room} old bytes"), fit, answer);
        }
        let short = |input: &mut Input| input.journal.truncate(135);
        self.changed("135 bytes of a ledger", &code(&[], &[]), short, (1, 0, 0));
    }

    fn of_class_1(&mut self) {
        let fit = code(&[], &[Relocation::new(0, WORD_64, 0, 0)]);
        self.add("type 2", fit, (9, 0, 0));
        self.one("addiw", LO12_I, &[0x1B, 0x05, 0x05, 0], 0x1000, (11, 0, 0));
        self.one("c.jal", RVC_JUMP, &[0x01, 0x20], 0x1000, DONE);
        // Halves lead everywhere.
        for target in [0, 0x7FFF_F800, 0x8000_0000, self.top] {
            let auipc = [0x17, 0x05, 0, 0];
            self.one("auipc", PCREL_HI20, &auipc, target, DONE);
            self.one("lui", HI20, &[0x37, 0x05, 0, 0], target, DONE);
        }
    }

    /// One relocation at 0x1000 towards a target.
    fn one(&mut self, name: &str, kind: u32, bytes: &[u8], target: u64, answer: Numbers) {
        let list = [Relocation::new(0, kind, 1, 0)];
        let fit = Fit::code(0x1000, bytes, &[Symbol::absolute(target)], &list);
        self.add(format!("{name} to {target:#x}"), fit, answer);
    }

    fn of_class_2(&mut self) {
        self.ends_of_halves();
        self.wrapping_offsets();
        for t in [0, 1 << 32, 1 << 63, (1 << 63) + 1, u64::MAX] {
            self.one("a word", WORD, &[0; 4], t, DONE);
            self.one("a word of 64 bits", WORD_64, &[0; 8], t, DONE);
        }
        self.one("addiw", LO12_I, &[0x1B, 0x05, 0x05, 0], 0x1000, DONE);
        self.one("slliw", LO12_I, &[0x1B, 0x15, 0x05, 0], 0x1000, (11, 0, 0));
        self.one("c.j", RVC_JUMP, &[0x01, 0xA0], 0x1000, DONE);
        self.one("c.addiw", RVC_JUMP, &[0x01, 0x20], 0x1000, (11, 0, 0));
        for kind in [256, 257, 0x133, 1 << 16, 1 << 31, u32::MAX] {
            let list = [
                Relocation::new(0, RELAX, 0, 0),
                Relocation::new(0, kind, 0, 0),
            ];
            self.add(format!("type {kind:#x}"), code(&[], &list), (9, 1, 0));
        }
        for symbol in [1 << 24, (1 << 24) + 1, u32::MAX] {
            let fit = code(&[], &[Relocation::new(0, WORD, symbol, 0)]);
            self.add(format!("symbol {symbol:#x}"), fit, (10, 0, 1));
        }
        for offset in [1 << 32, (1 << 32) + 4, 1 << 63, u64::MAX - 3, u64::MAX] {
            for kind in [WORD, WORD_64, RELAX, JAL] {
                let fit = code(&[], &[Relocation::new(offset, kind, 0, 0)]);
                self.add(format!("type {kind} at {offset:#x}"), fit, (9, 0, 0));
            }
        }
    }

    /// Sums in the object that go past 2^64.
    fn wrapping_offsets(&mut self) {
        for (offset, size) in [
            (64, 0_u64.wrapping_sub(64)),
            (u64::MAX, 65),
            (u64::MAX, u64::MAX),
            (1 << 63, 1 << 63),
            ((1 << 32) + 64, 8),
            (64, (1 << 32) + 8),
        ] {
            let mut fit = code(&[], &[]);
            fit.sections[1].offset = Some(offset);
            fit.sections[1].size = Some(size);
            self.add(format!("{size:#x} bytes from {offset:#x}"), fit, (5, 1, 0));
        }
        // Four sections, which would end at 0 or in the file.
        for table in [0_u64.wrapping_sub(256), 0_u64.wrapping_sub(100), 1 << 32] {
            let name = format!("section headers from {table:#x} on");
            let put =
                |input: &mut Input| input.object[40..48].copy_from_slice(&table.to_le_bytes());
            self.changed(name, &code(&[], &[]), put, (5, 0, 0));
        }
    }
}

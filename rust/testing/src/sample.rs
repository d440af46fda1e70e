//! Random fits of both classes: most are done, some break one rule.

mod items;

use crate::build::{
    flags_at, journal, object_with, order, Relocation, Section, Symbol, ABSOLUTE, COMMON, GLOBAL,
    IFUNC, RVC, TLS, WEAK,
};
use crate::random::Random;
use reference::Class;

/// What a fit is asked with, besides image and ledger.
#[derive(Clone, Debug)]
pub struct Call {
    pub object: Vec<u8>,
    pub order: Vec<u8>,
}

/// Every section is made of items of this many bytes.
const ITEM: u64 = 8;

/// What a section header will stand for; a number says which loaded section.
#[derive(Clone, Copy, PartialEq)]
enum Row {
    Loaded(usize),
    Relocations(usize),
    Nobits,
    Symbols,
    Text,
}

/// A loaded section before its bytes are made.
#[derive(Clone, Copy)]
struct Shape {
    alignment: u64,
    address: u64,
    size: u64,
}

/// One item's bytes and its relocations.
#[derive(Default)]
struct Item {
    bytes: Vec<u8>,
    relocations: Vec<Relocation>,
}

struct Sampler<'r> {
    class: Class,
    /// e_flags.
    flags: u32,
    random: &'r mut Random,
    /// Whether some low halves have no pair, some padding misses its boundary,
    /// some halves and jumps lead one step too far, and some jumps are short ones
    /// or lead half a step aside where bit 0 of e_flags is clear.
    is_faulty: bool,
    symbols: Vec<Symbol>,
    /// S of each symbol; `None` where it does not resolve, and for a label.
    values: Vec<Option<u64>>,
    /// The symbols that do not resolve.
    unresolved: Vec<u32>,
    external_values: Vec<(u32, u64)>,
}

/// A random call for an image of this length.
pub fn call(random: &mut Random, image_length: usize) -> Call {
    sample(random, image_length, false)
}

fn sample(random: &mut Random, image_length: usize, is_faulty: bool) -> Call {
    let class = random.pick(&Class::ALL);
    let flags = flags(random);
    let base = base(random, class, image_length, is_faulty);
    let shapes = shapes(random, class, base, image_length);
    let rows = rows(random, shapes.len());
    let mut sampler = Sampler {
        class,
        flags,
        random,
        is_faulty,
        symbols: vec![Symbol::default()],
        values: vec![Some(0)],
        unresolved: Vec::new(),
        external_values: Vec::new(),
    };
    sampler.add_symbols(&rows, &shapes);
    sampler.finish(base, &rows, &shapes)
}

/// e_flags: bit 0 is clear in one of three, and the other bits, which say nothing,
/// are those of compilers or any.
fn flags(random: &mut Random) -> u32 {
    let others = match random.below(3) {
        0 => random.u32(),
        _ => random.pick(&[0, 2, 4, 8]),
    };
    match random.one_in(3) {
        true => others & !RVC,
        false => others | RVC,
    }
}

/// A window's base: often at 0 or at the end of the address space; in class 2
/// also where addresses begin to have another number of bits.
fn base(random: &mut Random, class: Class, image_length: usize, is_faulty: bool) -> u64 {
    let highest = class.address_end() - image_length as i128;
    let near = random.below(image_length + 1) as u64;
    match random.below(6) {
        0 => 0,
        1 => 0x2000_0000,
        2 if is_faulty => (highest + 1) as u64,
        2 => (highest - 1) as u64,
        3 if class == Class::Elf64 => random.pick(&[1 << 31, 1 << 32, 1 << 63]) - near,
        4 if class == Class::Elf64 => (i128::from(random.u32()) % highest) as u64,
        _ => (i128::from(random.u64()) % highest) as u64,
    }
}

/// An image and a ledger in which no fit stands; often with little room, and
/// with any bytes past 136.
pub fn start(random: &mut Random) -> (Vec<u8>, Vec<u8>) {
    let length = random.pick(&[0, 1, 40, 120, 300, 300, 700]);
    let most_room = random.pick(&[1, 60, 400, 4_000]);
    let room = random.below(most_room);
    let mut journal = journal(0);
    journal.extend(random.bytes(room));
    (random.bytes(length), journal)
}

/// A random call, now and then faulty or damaged, or one for an image of
/// another length.
pub fn some_call(random: &mut Random, image_length: usize) -> Call {
    let mut call = match random.below(12) {
        0 => call(random, image_length + 50),
        1 => sample(random, image_length, true),
        _ => call(random, image_length),
    };
    if random.one_in(20) {
        // Short instructions, or none.
        let class = Class::of(&call.object).unwrap_or(Class::Elf32);
        call.object[flags_at(class)] ^= RVC as u8;
    }
    if random.one_in(12) {
        let at = random.below(call.object.len());
        call.object[at] ^= 1 << random.below(8);
    }
    if random.one_in(40) {
        // The other class.
        call.object[4] ^= 3;
    }
    if random.one_in(12) {
        let at = random.below(call.order.len());
        call.order[at] ^= 1 << random.below(8);
    }
    call
}

/// Sections one behind the other in the window, until it is full.
fn shapes(random: &mut Random, class: Class, base: u64, image_length: usize) -> Vec<Shape> {
    let mut shapes = Vec::new();
    let window_end = i128::from(base) + image_length as i128;
    let end = window_end.min(class.address_end() - 16);
    let mut next = u128::from(base) + random.below(12) as u128;
    for _ in 0..random.below(5) {
        let alignment = random.pick(&[0, 1, 2, 2, 4, 4, 8, 16]);
        let address = next.next_multiple_of(u128::from(alignment.max(2)));
        let size = ITEM * random.below(6) as u64 + random.pick(&[0, 0, 0, 1, 2, 5]);
        next = address + u128::from(size);
        if next as i128 > end {
            break;
        }
        shapes.push(Shape {
            alignment,
            address: address as u64,
            size,
        });
        next += random.below(9) as u128;
    }
    shapes
}

/// The sections in any order.
fn rows(random: &mut Random, loaded: usize) -> Vec<Row> {
    let mut rows: Vec<Row> = (0..loaded).map(Row::Loaded).collect();
    rows.extend((0..loaded).map(Row::Relocations));
    rows.push(Row::Symbols);
    rows.extend([Row::Nobits, Row::Text].into_iter().take(random.below(3)));
    for last in (1..rows.len()).rev() {
        rows.swap(last, random.below(last + 1));
    }
    rows
}

fn index_of(rows: &[Row], row: Row) -> Option<u32> {
    let found = rows.iter().position(|other| *other == row)?;
    Some(found as u32 + 1)
}

impl Sampler<'_> {
    fn is_64(&self) -> bool {
        self.class == Class::Elf64
    }

    fn has_compressed(&self) -> bool {
        self.flags & RVC != 0
    }

    /// What the distance of a jump is a multiple of.
    fn step(&self) -> i64 {
        match self.has_compressed() {
            true => 2,
            false => 4,
        }
    }

    /// A number modulo 2^32 or 2^64.
    fn reduced(&self, number: u64) -> u64 {
        match self.class {
            Class::Elf32 => number % (1 << 32),
            Class::Elf64 => number,
        }
    }

    /// Any value, in class 2 often one of few bits or near an end.
    fn value(&mut self) -> u64 {
        let any = self.random.u64();
        let value = match self.random.below(4) {
            0 => any,
            1 => any % (1 << 32),
            2 => (1 << 31) - 2_048 + any % 4_096,
            _ => 0_u64.wrapping_sub(any % 4_096),
        };
        self.reduced(if self.is_64() { value } else { any })
    }

    fn add(&mut self, symbol: Symbol, value: Option<u64>) -> u32 {
        self.symbols.push(symbol);
        self.values.push(value);
        self.symbols.len() as u32 - 1
    }

    fn add_symbols(&mut self, rows: &[Row], shapes: &[Shape]) {
        for (which, shape) in shapes.iter().enumerate() {
            let section = index_of(rows, Row::Loaded(which)).unwrap_or(0);
            let value = self.random.below(64) as u64;
            let symbol = Symbol::new(0, section as u16, value);
            self.add(
                symbol,
                Some(self.reduced(shape.address.wrapping_add(value))),
            );
        }
        let absolute = self.value();
        self.add(Symbol::new(GLOBAL, ABSOLUTE, absolute), Some(absolute));
        for info in [GLOBAL, WEAK] {
            let value = self.value();
            let symbol = self.add(Symbol::new(info, 0, 0), Some(value));
            self.external_values.push((symbol, value));
        }
        self.add(Symbol::new(WEAK, 0, 0), Some(0));
        self.add_unresolved(rows);
    }

    /// A symbol for each reason that it can have by itself, now and then with the
    /// type that is a later reason.
    fn add_unresolved(&mut self, rows: &[Row]) {
        let not_allocated = [
            index_of(rows, Row::Symbols).unwrap_or(0) as u16,
            rows.len() as u16 + 1,
            0xFEFF,
        ];
        let sections = [
            self.random.pick(&not_allocated),
            COMMON,
            self.random.pick(&[0xFF00, 0xFFF0, 0xFFF3, 0xFFFF]),
            0,
        ];
        for section in sections {
            let kind = self.random.pick(&[0, 0, 0, TLS]);
            let symbol = self.add(Symbol::new(GLOBAL + kind, section, 0), None);
            self.unresolved.push(symbol);
        }
        let kind = self.random.pick(&[TLS, IFUNC]);
        let symbol = self.add(Symbol::new(GLOBAL + kind, ABSOLUTE, 0), None);
        self.unresolved.push(symbol);
    }

    fn finish(mut self, base: u64, rows: &[Row], shapes: &[Shape]) -> Call {
        let made: Vec<Item> = (0..shapes.len())
            .map(|which| self.section(index_of(rows, Row::Loaded(which)), shapes[which]))
            .collect();
        let symtab = index_of(rows, Row::Symbols).unwrap_or(0);
        let mut sections = vec![Section::default()];
        let mut placements = Vec::new();
        for row in rows {
            let index = sections.len() as u32;
            sections.push(match *row {
                Row::Loaded(which) => {
                    placements.push((index, shapes[which].address));
                    Section::loaded(shapes[which].alignment, &made[which].bytes)
                }
                Row::Relocations(which) => {
                    let target = index_of(rows, Row::Loaded(which)).unwrap_or(0);
                    Section::relocations(target, symtab, &made[which].relocations)
                }
                Row::Nobits => {
                    // Half the address space away from the window.
                    let half = (self.class.address_end() / 2) as u64;
                    placements.push((index, (base ^ half) & !15));
                    Section::nobits(4, self.random.below(16) as u64)
                }
                Row::Symbols => Section::symbols(&self.symbols),
                Row::Text => Section {
                    kind: 3,
                    bytes: vec![0; 3],
                    ..Section::default()
                },
            });
        }
        Call {
            object: object_with(self.class, self.flags, &sections),
            order: order(self.class, base, &placements, &self.external_values),
        }
    }

    /// A section's bytes and relocations, item by item.
    fn section(&mut self, index: Option<u32>, shape: Shape) -> Item {
        let mut whole = Item::default();
        for number in 0..shape.size / ITEM {
            let mut item = self.item(index.unwrap_or(0) as u16, shape, number * ITEM);
            if self.random.one_in(60) {
                self.spoil(&mut item);
            }
            item.bytes.resize(ITEM as usize, 0x13);
            whole.bytes.extend(item.bytes);
            whole.relocations.extend(item.relocations);
        }
        let rest = shape.size as usize - whole.bytes.len();
        whole.bytes.extend(self.random.bytes(rest));
        whole
    }
}

//! Random edits of right pairs: most break no rule, or one.

use reference::order::Order;

use crate::Case;
use testing::build::{self, Class};
use testing::damage::{get, put};
use testing::random::Random;
use testing::sample::call;

/// Right pairs, and how often each is edited.
const PAIRS: u64 = 50;
const EDITS: u64 = 10;

/// A pair whose order is taken apart.
#[derive(Clone)]
struct Pair {
    class: Class,
    object: Vec<u8>,
    base: u64,
    placements: Vec<(u32, u64)>,
    externals: Vec<(u32, u64)>,
    image_length: usize,
    /// Where the symbols are, and how many.
    symbols: (usize, usize),
}

fn right(random: &mut Random) -> Pair {
    let image_length = random.pick(&[30, 100, 200, 400]);
    let call = call(random, image_length);
    let class = Class::of(&call.object).expect("a class");
    let order = Order::read(&call.order, class).expect("an order");
    let placement = |p: &reference::order::Placement| (p.section, p.address.0);
    let external = |e: &reference::order::ExternalValue| (e.symbol, e.value);
    Pair {
        class,
        symbols: symbols(class, &call.object),
        object: call.object,
        base: order.base.0,
        placements: order.placements.iter().map(placement).collect(),
        externals: order.external_values.iter().map(external).collect(),
        image_length,
    }
}

fn symbols(class: Class, object: &[u8]) -> (usize, usize) {
    let layout = class.layout();
    let field = |row: usize, at: usize, count| get(object, header(class, object, row) + at, count);
    let table = (0..).find(|row| field(*row, 4, 4) == 2).expect("a table");
    let long = class.address_bytes();
    let size = field(table, layout.sh_size, long);
    let start = field(table, layout.sh_offset, long);
    (start, size / layout.symbol_size)
}

/// Where a section header is.
fn header(class: Class, object: &[u8], row: usize) -> usize {
    let layout = class.layout();
    get(object, layout.e_shoff, class.address_bytes()) + layout.section_header_size * row
}

impl Pair {
    fn case(self, name: String) -> Case {
        Case {
            name,
            object: self.object,
            order: build::order(self.class, self.base, &self.placements, &self.externals),
            image_length: self.image_length,
            stated: None,
            values: Vec::new(),
            fit: None,
        }
    }

    fn rows(&self) -> usize {
        get(&self.object, self.class.layout().e_shnum, 2)
    }

    fn edit(&mut self, random: &mut Random) {
        match random.below(12) {
            0..=2 => self.edit_address(random),
            3 => self.edit_list(random),
            4 => self.edit_externals(random),
            5..=7 => self.edit_header(random),
            8..=10 => self.edit_symbol(random),
            _ => self.edit_window(random),
        }
    }

    /// An address moves a little, or to another section's.
    fn edit_address(&mut self, random: &mut Random) {
        if self.placements.is_empty() {
            return;
        }
        let step = random.pick(&[0, 1, 2, 4, 8, 16, 64]);
        let other = random.below(self.placements.len());
        let from = self.placements[other].1;
        let moved = random.below(self.placements.len());
        self.placements[moved].1 = match random.below(4) {
            0 => from.wrapping_add(step),
            1 => from.wrapping_sub(step),
            2 => self.placements[moved].1.wrapping_add(step),
            _ => self.placements[moved].1.wrapping_sub(step),
        };
    }

    /// A placement less or more.
    fn edit_list(&mut self, random: &mut Random) {
        let row = match random.below(8) {
            0 => random.u32(),
            1 => random.pick(&[127, 128, u32::MAX]),
            _ => random.below(self.rows() + 1) as u32,
        };
        toggle(&mut self.placements, row, self.base);
    }

    /// An external value less or more.
    fn edit_externals(&mut self, random: &mut Random) {
        let (_, count) = self.symbols;
        let symbol = random.below(count + 2) as u32;
        toggle(&mut self.externals, symbol, random.u64());
    }

    /// Type, flags, size or alignment of a section.
    fn edit_header(&mut self, random: &mut Random) {
        let (layout, long) = (self.class.layout(), self.class.address_bytes());
        let header = header(self.class, &self.object, random.below(self.rows()));
        let [at_flags, at_size] = [layout.sh_flags, layout.sh_size];
        let size = get(&self.object, header + at_size, long) as u64;
        let flags = get(&self.object, header + at_flags, long) as u64;
        let (field, value, count) = match random.below(8) {
            0 => (4, random.pick(&[1, 8, 7, 0]), 4),
            1 => (at_flags, flags ^ 2, long),
            2 => (at_size, random.pick(&[0, 1]), long),
            3 => (at_size, size.wrapping_sub(1), long),
            4 => (at_size, size + 1, long),
            _ => (layout.sh_addralign, 1 << random.below(7), long),
        };
        put(&mut self.object, header + field, value, count);
    }

    /// Value, type and binding, or section of a symbol.
    fn edit_symbol(&mut self, random: &mut Random) {
        let (start, count) = self.symbols;
        let (layout, long) = (self.class.layout(), self.class.address_bytes());
        let entry = start + layout.symbol_size * random.below(count);
        let [info, in_section] = [layout.st_info, layout.st_shndx].map(|at| entry + at);
        let rows = self.rows() as u64;
        match random.below(4) {
            0 => {
                let value = entry + layout.st_value;
                put(&mut self.object, value, random.u64(), long);
            }
            1 => {
                let kind = random.pick(&[0, 1, 2, 6, 10]);
                let binding = random.pick(&[0, 1, 2, 3]);
                put(&mut self.object, info, 16 * binding + kind, 1);
            }
            _ => {
                let odd = random.pick(&[0, 0xFFF1, 0xFFF2, rows, 0xFF00]);
                let row = random.below(rows as usize) as u64;
                let section = random.pick(&[odd, row]);
                put(&mut self.object, in_section, section, 2);
            }
        }
    }

    fn edit_window(&mut self, random: &mut Random) {
        let step = random.pick(&[1, 2, 8, 100]);
        match random.below(4) {
            0 => self.base = self.base.wrapping_add(step),
            1 => self.base = self.base.wrapping_sub(step),
            2 => self.image_length += step as usize,
            _ => self.image_length = self.image_length.saturating_sub(step as usize),
        }
    }
}

/// Takes an entry out, or puts it in its place.
fn toggle(entries: &mut Vec<(u32, u64)>, index: u32, value: u64) {
    match entries.binary_search_by_key(&index, |entry| entry.0) {
        Ok(at) => {
            entries.remove(at);
        }
        Err(at) => entries.insert(at, (index, value)),
    }
}

fn edited(seed: u64) -> Vec<Case> {
    let random = &mut Random::new(seed);
    let pair = right(random);
    let mut cases = vec![pair.clone().case(format!("pair {seed}"))];
    for number in 0..EDITS {
        let mut edited = pair.clone();
        for _ in 0..1 + random.below(2) {
            edited.edit(random);
        }
        cases.push(edited.case(format!("edit {number} of pair {seed}")));
    }
    cases
}

pub fn cases() -> Vec<Case> {
    (0..PAIRS)
        .flat_map(|seed| edited(seed + (1 << 35)))
        .collect()
}

//! The lines, as the program `tests_readings` writes them.

use std::iter::once;

use reference::numbers::Address;
use reference::object::{Header, Object, Section, NOBITS, NULL, RELA, SYMTAB};
use reference::order::{is_allowed_length, ExternalValue, Order, Placement, Window};
use reference::relocation::Relocation;
use reference::symbol::Symbol;
use reference::Class;

use crate::Question;

/// Number and place, and what else the line has.
type Reading = ((u32, u32), Vec<u64>);

fn reading(question: &Question) -> Reading {
    match question {
        Question::Object(bytes) => object(bytes),
        Question::Order(class, bytes) => order(*class, bytes),
        Question::Window(class, base, length) => window(*class, *base, *length),
    }
}

pub fn answer(question: &Question) -> (u32, u32) {
    reading(question).0
}

pub fn line(question: &Question) -> String {
    let letter = match question {
        Question::Object(_) => 'o',
        Question::Order(Class::Elf32, _) => 'r',
        Question::Order(Class::Elf64, _) => 'R',
        Question::Window(Class::Elf32, ..) => 'w',
        Question::Window(Class::Elf64, ..) => 'W',
    };
    let ((number, place), numbers) = reading(question);
    let rest: String = numbers.iter().map(|n| format!(" {n:x}")).collect();
    format!("{letter} {number} {place}{rest}")
}

/// Many numbers as one: for each a sum and a step of xorshift.
fn digest(numbers: impl IntoIterator<Item = u64>) -> u64 {
    numbers
        .into_iter()
        .fold(0x9E37_79B9_7F4A_7C15, |digest, n| {
            let x = u64::wrapping_add(digest, n);
            let a = x ^ (x << 13);
            let b = a ^ (a >> 7);
            (b ^ (b << 17)).wrapping_add(1)
        })
}

fn object(file: &[u8]) -> Reading {
    let Some(header) = Header::read(file) else {
        return ((4, 0), vec![]);
    };
    match Object::read(file, header) {
        Err(place) => ((5, place), vec![]),
        Ok(object) => ((0, 0), [sections(&object), entries(&object)].concat()),
    }
}

fn sections(object: &Object) -> Vec<u64> {
    let all = object.sections();
    vec![
        all.len() as u64,
        digest(all.iter().flat_map(fields)),
        digest(all.iter().flat_map(|section| roles(object, section))),
        digest(all.iter().flat_map(|section| body(object, section))),
    ]
}

fn fields(section: &Section) -> [u64; 8] {
    [
        u64::from(section.kind),
        section.flags,
        section.offset.0,
        section.size,
        u64::from(section.link),
        u64::from(section.info),
        section.alignment,
        section.entry_size,
    ]
}

fn roles(object: &Object, section: &Section) -> [u64; 3] {
    let counts = counts_as_rela(object, section);
    [section.is_allocated(), section.is_loaded(), counts].map(u64::from)
}

/// "A RELA or REL row counts only if its info names an allocated row."
fn counts_as_rela(object: &Object, section: &Section) -> bool {
    let target = object.section(section.info);
    section.kind == RELA && target.is_some_and(Section::is_allocated)
}

/// How many bytes a section has in the file, and these.
fn body(object: &Object, section: &Section) -> Vec<u64> {
    if matches!(section.kind, NULL | NOBITS) {
        return vec![];
    }
    let bytes = object.bytes_of(section);
    let numbers = bytes.iter().copied().map(u64::from);
    once(bytes.len() as u64).chain(numbers).collect()
}

fn entries(object: &Object) -> Vec<u64> {
    let sections = object.sections();
    let table = sections.iter().position(|section| section.kind == SYMTAB);
    let symbols: Vec<Symbol> = match object.symbol_table() {
        Some(table) => (0..).map_while(|index| table.get(index)).collect(),
        None => vec![],
    };
    let lists = object.relocation_sections();
    let relocations = lists.iter().flat_map(|list| &list.relocations);
    vec![
        table.unwrap_or(sections.len()) as u64,
        symbols.len() as u64,
        table.map_or(0, |_| digest(symbols.iter().flat_map(symbol))),
        relocations.clone().count() as u64,
        digest(locations(object)),
        digest(relocations.flat_map(relocation)),
    ]
}

fn symbol(symbol: &Symbol) -> [u64; 4] {
    [
        symbol.value,
        u64::from(symbol.kind),
        u64::from(symbol.binding),
        u64::from(symbol.section),
    ]
}

fn relocation(relocation: &Relocation) -> [u64; 4] {
    [
        relocation.offset.0,
        u64::from(relocation.kind),
        u64::from(relocation.symbol),
        relocation.addend as u64,
    ]
}

/// How many relocations each section holds.
fn relocation_counts(object: &Object) -> Vec<u64> {
    let mut lists = object.relocation_sections().into_iter();
    let mut count = |section: &Section| {
        if !counts_as_rela(object, section) {
            return 0;
        }
        let list = lists.next().expect("a list for each");
        assert_eq!(list.target, section.info as usize);
        list.relocations.len() as u64
    };
    object.sections().iter().map(&mut count).collect()
}

/// "record, counted from 0 over all": for each section where the first record
/// behind it is, where the one in the middle below that is, and where the one
/// before it is.
fn locations(object: &Object) -> Vec<u64> {
    let counts = relocation_counts(object);
    let mut below = 0_u64;
    let mut found = Vec::new();
    for count in &counts {
        below += count;
        for number in [below, below / 2, below.wrapping_sub(1)] {
            found.extend(location(&counts, number));
        }
    }
    found
}

/// The section and the entry of a record; past the last one, the number of
/// sections and how far past.
fn location(counts: &[u64], number: u64) -> [u64; 2] {
    let mut left = number;
    for (section, count) in counts.iter().enumerate() {
        if left < *count {
            return [section as u64, left];
        }
        left -= count;
    }
    [counts.len() as u64, left]
}

fn order(class: Class, bytes: &[u8]) -> Reading {
    match Order::read(bytes, class) {
        Some(order) => ((0, 0), order_numbers(&order)),
        None => ((2, 0), vec![]),
    }
}

fn order_numbers(order: &Order) -> Vec<u64> {
    let pair = |index: &u32, number: &u64| [u64::from(*index), *number];
    let placement = |p: &Placement| pair(&p.section, &p.address.0);
    let external = |e: &ExternalValue| pair(&e.symbol, &e.value);
    let near = |index: u32| [index.wrapping_sub(1), index, index.wrapping_add(1)];
    let given = |index| values(order, index);
    let sections = order.placements.iter().map(|p| p.section);
    let symbols = order.external_values.iter().map(|e| e.symbol);
    vec![
        order.base.0,
        order.placements.len() as u64,
        order.external_values.len() as u64,
        digest(order.placements.iter().flat_map(placement)),
        digest(order.external_values.iter().flat_map(external)),
        digest((0..128).map(|section| placed(order, section).unwrap_or(0))),
        digest((0..130).flat_map(given)),
        digest(sections.flat_map(near).flat_map(given)),
        digest(symbols.flat_map(near).flat_map(given)),
    ]
}

/// The address that an order gives a section.
fn placed(order: &Order, section: u32) -> Option<u64> {
    let mut all = order.placements.iter();
    let found = all.find(|placement| placement.section == section)?;
    Some(found.address.0)
}

/// What an order gives a number as a section and as a symbol; 2^32 is nothing.
fn values(order: &Order, index: u32) -> [u64; 2] {
    let mut all = order.external_values.iter();
    let found = all.find(|external| external.symbol == index);
    let value = found.map(|external| external.value);
    [placed(order, index), value].map(|given| given.unwrap_or(1 << 32))
}

fn window(class: Class, base: u64, length: u32) -> Reading {
    let number = |is_allowed| if is_allowed { 0 } else { 3 };
    let install = Window::new(Address(base), length as usize, class).is_some();
    let rollback = number(is_allowed_length(length as usize));
    let numbers = vec![rollback, base, u64::from(length)];
    ((number(install) as u32, 0), numbers)
}

//! Random changes of right objects and orders, objects of random section
//! headers, orders of random lists, and random bytes.

use crate::commands::SPACE;
use crate::{Case, Question};
use testing::build::*;
use testing::damage::{damage, right_input};
use testing::random::Random;

/// Right inputs, and how often each is damaged.
const RIGHT_INPUTS: u64 = 40;
const DAMAGES: u64 = 12;
const HEADERS: u64 = 300;
const LISTS: u64 = 120;
const STRINGS: u64 = 60;

fn damaged(seed: u64) -> Vec<Case> {
    let random = &mut Random::new(seed);
    let right = right_input(random);
    let mut cases = Vec::new();
    for number in 0..DAMAGES {
        let mut input = right.clone();
        damage(random, &mut input);
        let name = format!("damage {number} of input {seed}");
        let class = Class::of(&input.object).unwrap_or(Class::Elf32);
        cases.push(Case::new(&name, Question::Object(input.object), None));
        cases.push(Case::new(&name, Question::Order(class, input.order), None));
    }
    cases.retain(fits_space);
    cases
}

fn fits_space(case: &Case) -> bool {
    match &case.question {
        Question::Object(bytes) | Question::Order(_, bytes) => bytes.len() <= SPACE,
        Question::Window(..) => true,
    }
}

/// An object whose section headers are made of numbers that matter. Section
/// `table` is a SYMTAB, to which most RELA sections link.
fn headers(seed: u64) -> Case {
    let random = &mut Random::new(seed);
    let class = random.pick(&Class::ALL);
    let count = 3 + random.below(7);
    let table = 1 + random.below(count - 1);
    let mut sections = vec![Section::default()];
    sections.extend((1..count).map(|at| {
        let most = [PROGBITS, PROGBITS, PROGBITS, NOBITS, RELA, RELA, RELA, 7];
        let others = [NULL, SYMTAB, REL];
        let kind = match random.below(12) {
            _ if at == table => SYMTAB,
            0 => random.pick(&others),
            _ => random.pick(&most),
        };
        section(random, class, kind, table as u32, count)
    }));
    let name = format!("section headers {seed}");
    Case::new(name, Question::Object(object(class, &sections)), None)
}

fn section(random: &mut Random, class: Class, kind: u32, table: u32, count: usize) -> Section {
    let is_odd = random.one_in(8);
    let unit = match kind {
        SYMTAB => symbol_size(class),
        RELA => relocation_size(class),
        _ => 8,
    };
    let size = unit * random.below(4) as u64;
    let mut section = Section {
        kind,
        flags: random.pick(&[ALLOCATED, ALLOCATED, 3, 6, 5]),
        size: Some(size),
        link: table,
        info: random.below(count + 1) as u32,
        alignment: random.pick(&[0, 1, 4, 8]),
        entry_size: Some(unit),
        bytes: random.bytes(size as usize),
        ..Section::default()
    };
    if matches!(kind, SYMTAB | RELA | REL) {
        section.flags = 4;
    }
    if is_odd {
        make_odd(random, &mut section);
    }
    section
}

/// One field gets another value, which may be right too.
fn make_odd(random: &mut Random, section: &mut Section) {
    match random.below(6) {
        0 => section.flags ^= ALLOCATED,
        1 => section.offset = Some(random.u64() % 1_000),
        2 => section.size = Some(random.u64() % 100),
        3 => section.link = random.u32() % 10,
        4 => section.alignment = random.u64() % 10,
        _ => section.entry_size = Some(random.pick(&[0, 4, 12, 16, 24])),
    }
}

/// An order of two short lists that mostly rise.
fn lists(seed: u64) -> Case {
    let random = &mut Random::new(seed);
    let class = random.pick(&Class::ALL);
    let base = random.u64();
    let (placements, externals) = (list(random), list(random));
    let bytes = order(class, base, &placements, &externals);
    Case::new(format!("lists {seed}"), Question::Order(class, bytes), None)
}

fn list(random: &mut Random) -> Vec<(u32, u64)> {
    let mut index = random.below(3) as u32;
    let mut entries = Vec::new();
    for _ in 0..random.below(12) {
        entries.push((index, random.u64()));
        let step = random.pick(&[1, 1, 1, 2, 3, 5, 100, 1 << 30]);
        let step = if random.one_in(40) {
            random.pick(&[0, u32::MAX])
        } else {
            step
        };
        index = index.wrapping_add(step);
    }
    entries
}

/// Random bytes; the object's header is right.
fn strings(seed: u64) -> Vec<Case> {
    let random = &mut Random::new(seed);
    let length = random.pick(&[0, 1, 4, 15, 16, 17, 24, 51, 52, 53, 92, 132, 300]);
    let bytes = random.bytes(length);
    let class = random.pick(&Class::ALL);
    let mut header = object(class, &[Section::default()]);
    header.extend(&bytes);
    let layout = class.layout();
    header[layout.e_shoff] = (layout.header_size + random.below(30)) as u8;
    header[layout.e_shnum] = random.below(8) as u8;
    let name = format!("random bytes {seed}");
    vec![
        Case::new(&name, Question::Object(bytes.clone()), None),
        Case::new(&name, Question::Object(header), None),
        Case::new(&name, Question::Order(class, bytes), None),
    ]
}

pub fn cases() -> Vec<Case> {
    let mut cases = Vec::new();
    cases.extend((0..RIGHT_INPUTS).flat_map(damaged));
    cases.extend((0..HEADERS).map(|seed| headers(seed + (1 << 32))));
    cases.extend((0..LISTS).map(|seed| lists(seed + (1 << 33))));
    cases.extend((0..STRINGS).flat_map(|seed| strings(seed + (1 << 34))));
    cases
}

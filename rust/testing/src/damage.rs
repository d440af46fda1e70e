//! Damage to a whole input: anywhere, and at the fields that the rules read.

use crate::build::Fit;
use crate::random::Random;
use crate::sample::call;
use crate::vectors::{bytes, lines};
use reference::{install, Class};

/// Everything that a fit is asked with.
#[derive(Clone, Debug)]
pub struct Input {
    pub object: Vec<u8>,
    pub order: Vec<u8>,
    pub image: Vec<u8>,
    pub journal: Vec<u8>,
}

impl From<&Fit> for Input {
    fn from(fit: &Fit) -> Input {
        Input {
            object: fit.object(),
            order: fit.order(),
            image: fit.image.clone(),
            journal: fit.journal.clone(),
        }
    }
}

/// A right input whose ledger may hold earlier fits.
pub fn right_input(random: &mut Random) -> Input {
    let length = random.pick(&[0, 30, 100, 200, 400]);
    let mut image = random.bytes(length);
    let most_room = random.pick(&[1, 100, 2_000]);
    let mut journal = vec![0; 136 + random.below(most_room)];
    let earlier = random.pick(&[0, 0, 1, 2, 5, 16]);
    for _ in 0..earlier {
        let earlier = call(random, length);
        install(&earlier.object, &earlier.order, &mut image, &mut journal);
    }
    let last = call(random, length);
    Input {
        object: last.object,
        order: last.order,
        image,
        journal,
    }
}

/// The fits of the vectors.
pub fn vector_inputs() -> Vec<Input> {
    let fit = |(_, words): (usize, Vec<String>)| {
        (words[0] == "fit").then(|| Input {
            object: bytes(&words[1]),
            order: bytes(&words[2]),
            image: bytes(&words[3]),
            journal: bytes(&words[4]),
        })
    };
    lines("calls.txt").into_iter().filter_map(fit).collect()
}

/// A right input with up to three wounds, and now and then wholly random bytes.
pub fn damage(random: &mut Random, input: &mut Input) {
    for _ in 0..random.below(4) {
        match random.below(17) {
            0..=3 => wound_table(random, &mut input.object),
            4..=6 => wound_relocation(random, &mut input.object),
            7..=8 => wound_bytes(random, &mut input.object),
            9..=10 => wound_bytes(random, &mut input.order),
            11..=12 => wound_bytes(random, &mut input.journal),
            13 => wound_bytes(random, &mut input.image),
            14 => *part(random, input) = some_bytes(random),
            15 => wound_flags(random, &mut input.object),
            _ => wound_header(random, &mut input.object),
        }
    }
    if random.one_in(3_000) {
        let length = random.pick(&[65_537, 1_048_575, 1_048_576, 1_048_577, 1_100_000]);
        part(random, input).resize(length, 0);
    }
}

fn part<'i>(random: &mut Random, input: &'i mut Input) -> &'i mut Vec<u8> {
    match random.below(4) {
        0 => &mut input.object,
        1 => &mut input.order,
        2 => &mut input.image,
        _ => &mut input.journal,
    }
}

fn some_bytes(random: &mut Random) -> Vec<u8> {
    let length = random.pick(&[0, 1, 16, 51, 52, 63, 64, 92, 128, 135, 136, 300]);
    random.bytes(length)
}

/// A number at or beside a limit of the rules, and of both classes.
fn boundary(random: &mut Random, near: usize) -> u64 {
    const LIMITS: [u64; 28] = [
        0,
        1,
        2,
        4,
        8,
        9,
        12,
        16,
        24,
        40,
        52,
        64,
        127,
        128,
        243,
        4_094,
        4_096,
        8_192,
        32_768,
        1_048_576,
        0xFFF1,
        1 << 31,
        (1 << 31) - 2_048,
        1 << 32,
        1 << 63,
        (1 << 63) | 1,
        u64::MAX - 1_048_575,
        0,
    ];
    let limit = match random.below(3) {
        0 => near as u64,
        _ => random.pick(&LIMITS),
    };
    limit.wrapping_add(random.pick(&[0, 0, 1, u64::MAX]))
}

/// One bit, one byte, one number, or the length.
pub fn wound_bytes(random: &mut Random, bytes: &mut Vec<u8>) {
    let length = bytes.len();
    match random.below(6) {
        0 if length > 0 => bytes[random.below(length)] ^= 1 << random.below(8),
        1 if length > 0 => bytes[random.below(length)] = random.u64() as u8,
        2 | 3 if length >= 4 => {
            let at = random.below(length / 4) * 4;
            let count = random.pick(&[4, 8]);
            put(bytes, at, boundary(random, length), count);
        }
        4 => bytes.truncate(length.saturating_sub(random.below(20))),
        _ => bytes.resize(length + random.below(20), random.u64() as u8),
    }
}

/// A field of the header, or its class.
fn wound_header(random: &mut Random, object: &mut [u8]) {
    let layout = class_of(object).layout();
    if random.one_in(8) {
        put(object, 4, random.pick(&[0, 1, 2, 3, 255]), 1);
        return;
    }
    let at = random.pick(&[
        0,
        4,
        5,
        6,
        16,
        18,
        20,
        layout.e_shoff,
        layout.e_shoff + 4,
        layout.e_ehsize,
        layout.e_shentsize,
        layout.e_shnum,
    ]);
    let value = boundary(random, object.len());
    put(object, at, value, 2);
}

/// Bit 0 of e_flags turned around, or any e_flags.
fn wound_flags(random: &mut Random, object: &mut [u8]) {
    let at = class_of(object).layout().e_flags;
    let flags = match random.below(4) {
        0 => u64::from(random.u32()),
        _ => get(object, at, 4) as u64 ^ 1,
    };
    put(object, at, flags, 4);
}

/// What the object says of itself, or class 1 where it says neither.
fn class_of(object: &[u8]) -> Class {
    Class::of(object).unwrap_or(Class::Elf32)
}

/// Where an object's section headers are, as far as it can be told.
struct Table {
    class: Class,
    start: usize,
    count: usize,
}

impl Table {
    fn of(object: &[u8]) -> Table {
        let class = class_of(object);
        let layout = class.layout();
        Table {
            class,
            start: get(object, layout.e_shoff, class.address_bytes()),
            count: get(object, layout.e_shnum, 2),
        }
    }

    /// Where a section header begins; past all bytes where it is nowhere.
    fn header(&self, row: usize) -> usize {
        let size = self.class.layout().section_header_size;
        self.start.saturating_add(size * row)
    }

    /// Where a field of a section header is.
    fn field(&self, row: usize, field: usize) -> usize {
        self.header(row).saturating_add(field)
    }
}

/// One field of one section header.
fn wound_table(random: &mut Random, object: &mut [u8]) {
    let table = Table::of(object);
    let (layout, long) = (table.class.layout(), table.class.address_bytes());
    let row = random.below(table.count.max(1));
    let (field, count) = random.pick(&[
        (4, 4),
        (layout.sh_flags, long),
        (layout.sh_offset, long),
        (layout.sh_size, long),
        (layout.sh_link, 4),
        (layout.sh_info, 4),
        (layout.sh_addralign, long),
        (layout.sh_entsize, long),
    ]);
    let near = random.pick(&[object.len(), table.count, row]);
    let value = boundary(random, near);
    put(object, table.field(row, field), value, count);
}

/// One field of one relocation, of the symbol beside it, or of its section's
/// bytes.
pub fn wound_relocation(random: &mut Random, object: &mut [u8]) {
    let table = Table::of(object);
    let (layout, long) = (table.class.layout(), table.class.address_bytes());
    let rela = |row: &usize| get(object, table.field(*row, 4), 4) == 4;
    let rows: Vec<usize> = (0..table.count.min(128)).filter(rela).collect();
    let Some(row) = (!rows.is_empty()).then(|| random.pick(&rows)) else {
        return;
    };
    let number = |field: usize| get(object, table.field(row, field), long);
    let (start, size) = (number(layout.sh_offset), number(layout.sh_size));
    let each = layout.relocation_size;
    let entry = start.saturating_add(each * random.below((size / each).max(1)));
    let at = |field: usize| entry.saturating_add(field);
    let (info, addend) = (at(layout.r_info), at(layout.r_addend));
    let symbol = at(layout.r_info + layout.r_sym_bit as usize / 8);
    match random.below(9) {
        0 => put(object, info, random.u64() % 64, 1),
        1 => put(object, symbol, random.u64() % 16, 3),
        2 => put(object, addend, boundary(random, size), long),
        3 => put(object, addend, random.u64() % 64, long),
        4 => {
            let moved = get(object, entry, long).wrapping_add(random.below(9));
            put(object, entry, moved.wrapping_sub(4) as u64, long);
        }
        5 => {
            // The same relocation twice: two pairs, or an overlap.
            let copy: Vec<u8> = (0..each)
                .map(|byte| get(object, at(byte), 1) as u8)
                .collect();
            for (byte, value) in copy.into_iter().enumerate() {
                put(object, at(each + byte), u64::from(value), 1);
            }
        }
        // The second byte of the info: a type above 255, or another symbol.
        6 => put(object, info.saturating_add(1), random.u64() % 4, 1),
        _ => {
            // A step further: padding beside its boundary, or a jump too far.
            let further = get(object, addend, long).wrapping_add(2);
            put(object, addend, further as u64, long);
        }
    }
}

/// The number of so many bytes at a place; 0 where they are not all there.
pub fn get(bytes: &[u8], at: usize, count: usize) -> usize {
    let found = bytes.get(at..at.saturating_add(count)).unwrap_or_default();
    let fold = |number: usize, byte: &u8| number << 8 | usize::from(*byte);
    found.iter().rev().fold(0, fold)
}

/// Makes so many bytes at a place a number's lowest, where they are all there.
pub fn put(bytes: &mut [u8], at: usize, value: u64, count: usize) {
    if let Some(place) = bytes.get_mut(at..at.saturating_add(count)) {
        place.copy_from_slice(&value.to_le_bytes()[..count]);
    }
}

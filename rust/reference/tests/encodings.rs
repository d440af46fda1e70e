//! The lines of `crates/tests_encodings/stdout`, worked out anew: fields, halves,
//! types, sums, ranges and forms over fixed inputs, in hexadecimal. The program
//! `tests_encodings` writes the same lines from the proved functions. Types and
//! forms are those of class 1.

use reference::fields::{extract, high_half, insert, low_half, Field, Layout};
use reference::fields::{B, CB, CJ, I, J, S, U};
use reference::instruction::Form;
use reference::numbers::Whole;
use reference::relocation::{effect_of, Calculation, Effect, Patch};
use reference::Class;
use testing::compared::Compared;

const PROGRAM: Compared = Compared("tests_encodings");

const FIELDS: [Field; 13] = [
    Field::U,
    Field::I,
    Field::S,
    Field::B,
    Field::J,
    Field::CB,
    Field::CJ,
    Field::UThenI,
    Field::Data { bits: 6 },
    Field::Data { bits: 8 },
    Field::Data { bits: 16 },
    Field::Data { bits: 32 },
    Field::Data { bits: 64 },
];

const FORMS: [Form; 10] = [
    Form::Any,
    Form::Lui,
    Form::Auipc,
    Form::Jal,
    Form::Branch,
    Form::LowI,
    Form::LowS,
    Form::Call,
    Form::CompressedBranch,
    Form::CompressedJump,
];

const OPCODES: [u64; 12] = [
    0x03, 0x07, 0x13, 0x17, 0x23, 0x27, 0x37, 0x63, 0x67, 0x6F, 0x01, 0x41,
];

/// xorshift of 64 bits.
fn next(x: u64) -> u64 {
    let a = x ^ (x << 13);
    let b = a ^ (a >> 7);
    b ^ (b << 17)
}

/// The lines of one kind, each made of its number and two numbers of the
/// sequence.
fn run(count: u64, line: impl Fn(u64, u64, u64) -> String) -> String {
    let mut b = 0x9E37_79B9_7F4A_7C15;
    let mut lines = String::new();
    for i in 0..count {
        let a = next(b);
        b = next(a);
        lines += &line(i, a, b);
        lines += "\n";
    }
    lines
}

/// What the field's bytes hold of a longer word.
fn cut(field: Field, word: u64) -> u64 {
    (Whole::from(word) % (1 << (8 * field.bytes()))) as u64
}

/// The layouts of a field's instructions, with their first bits and how many
/// bits their numbers have.
fn instructions(field: Field) -> Vec<(Layout, u32, u32)> {
    match field {
        Field::U => vec![(U, 0, 32)],
        Field::I => vec![(I, 0, 12)],
        Field::S => vec![(S, 0, 12)],
        Field::B => vec![(B, 0, 13)],
        Field::J => vec![(J, 0, 21)],
        Field::CB => vec![(CB, 0, 9)],
        Field::CJ => vec![(CJ, 0, 12)],
        Field::UThenI => vec![(U, 0, 32), (I, 32, 12)],
        Field::Data { .. } => vec![],
    }
}

/// The word with a value put in, with no half taken first.
fn put(field: Field, word: u64, value: u64) -> u64 {
    if let Field::Data { .. } = field {
        return field.put(word, Whole::from(value));
    }
    let low = |at| (word >> at) % (1 << 32);
    instructions(field)
        .into_iter()
        .map(|(layout, at, _)| insert(layout, low(at), Whole::from(value)) << at)
        .sum()
}

/// The value in the field, its sign bit as a bit.
fn read(field: Field, word: u64) -> Whole {
    let low = |at| (word >> at) % (1 << 32);
    let parts = instructions(field).into_iter();
    let values = parts.map(|(layout, at, bits)| extract(layout, low(at)).rem_euclid(1 << bits));
    values.sum::<Whole>() + field.present(word)
}

fn field_line(i: u64, word: u64, value: u64) -> String {
    let number = i % 13;
    let field = FIELDS[number as usize];
    let held = cut(field, word);
    let (put, read) = (put(field, held, value), read(field, held));
    format!("f {number:x} {word:x} {value:x} {put:x} {read:x}")
}

fn half_line(x: u64) -> String {
    let x = Whole::from(x) % (1 << 32);
    let low = low_half(x).rem_euclid(1 << 12);
    format!("h {x:x} {:x} {low:x}", high_half(x))
}

/// The calculation as the program `tests_encodings` writes it: which part of which operand, or ADD, SUB or SET.
fn calculation(patch: Patch) -> String {
    let operand = match patch.calculation {
        Calculation::Target => 0,
        Calculation::Distance => 1,
        Calculation::PairDistance => 2,
        Calculation::Add => return "5".to_string(),
        Calculation::Subtract => return "6".to_string(),
        Calculation::Set => return "7".to_string(),
    };
    let part = match patch.field {
        Field::Data { .. } => 0,
        Field::B | Field::J | Field::CB | Field::CJ => 1,
        Field::U => 2,
        Field::I | Field::S => 3,
        Field::UThenI => 4,
    };
    format!("{part:x} {operand:x}")
}

fn place_in<T: PartialEq>(all: &[T], one: T) -> usize {
    all.iter().position(|other| *other == one).expect("listed")
}

/// The first 256 lines are for objects with bit 0 of e_flags set, the others for those without it.
fn type_line(i: u64) -> String {
    let (kind, rvc) = (i % 256, u8::from(i < 256));
    match effect_of(kind as u32, Class::Elf32) {
        Effect::Marker => format!("t {kind:x} {rvc} 0"),
        Effect::Align => format!("t {kind:x} {rvc} 1"),
        Effect::Refused => format!("t {kind:x} {rvc} 3"),
        Effect::Patch(patch) if rvc == 0 && patch.form.is_compressed() => {
            format!("t {kind:x} {rvc} 3")
        }
        Effect::Patch(patch) => {
            let calculation = calculation(patch);
            let field = place_in(&FIELDS, patch.field);
            let form = place_in(&FORMS, patch.form);
            let bytes = patch.field.bytes();
            let pairs = u8::from(kind == 23);
            format!("t {kind:x} {rvc} 2 {calculation} {field:x} {form:x} {bytes:x} {pairs:x}")
        }
    }
}

/// ADD, SUB and SET; x is S + A in two's complement.
fn data_line(width: u64, word: u64, x: u64) -> String {
    let field = FIELDS[8 + width as usize];
    let held = cut(field, word);
    let (v, change) = (field.present(held), Whole::from(x as i64));
    let [add, sub, set] = [v + change, v - change, change].map(|new| field.put(held, new));
    format!("d {width:x} {word:x} {x:x} {add:x} {sub:x} {set:x}")
}

fn edge(width: u64, number: u64) -> u64 {
    let bits = [6, 8, 16, 32, 64][width as usize];
    let top = ((1u128 << bits) - 1) as u64;
    [0, 1, top, 1 << 63, u64::MAX][number as usize]
}

fn edge_line(i: u64) -> String {
    let width = i / 25;
    data_line(width, edge(width, i / 5 % 5), edge(width, i % 5))
}

fn reach_line(i: u64) -> String {
    let number = i / 14;
    let field = [Field::B, Field::J, Field::CB, Field::CJ][number as usize];
    let reach = field.reach().expect("a jump's or branch's field");
    let p: Whole = [0x8000_0000, 0][(i / 7 % 2) as usize];
    let (first, last) = (p + reach.start(), p + reach.end());
    let targets = [last, last + 1, last + 2, first, first - 1, first - 2, p];
    let t = targets[(i % 7) as usize].rem_euclid(1 << 32);
    let reached = [Class::Elf32, Class::Elf64].map(|class| {
        let distance = class.signed(t - p);
        u8::from(distance % 2 == 0 && reach.contains(&distance))
    });
    let aligned = u8::from((t - p) % 4 == 0);
    format!(
        "r {number:x} {t:x} {p:x} {} {} {aligned}",
        reached[0], reached[1]
    )
}

/// A word whose rd and rs1 are 0 or 1 and whose funct3 is often 0.
fn word(opcode: u64, x: u64) -> u64 {
    let rd = x % 2;
    let funct3 = if x >> 1 & 1 == 0 { 0 } else { x >> 2 & 7 };
    let rs1 = x >> 5 & 1;
    opcode | rd << 7 | funct3 << 12 | rs1 << 15 | (x >> 6 & 0xFFF) << 20
}

fn form_line(i: u64, a: u64, b: u64) -> String {
    let (word, next) = (word(OPCODES[(i / 16) as usize], a), word(0x67, b));
    let bytes = (word | next << 32).to_le_bytes();
    let flags = FORMS.map(|form| {
        let count = match form {
            Form::Call => 8,
            Form::CompressedBranch | Form::CompressedJump => 2,
            _ => 4,
        };
        if form.matches(&bytes[..count], Class::Elf32) {
            " 1"
        } else {
            " 0"
        }
    });
    format!("i {word:x} {next:x}{}", flags.concat())
}

fn lines() -> String {
    run(416, field_line)
        + &run(64, |_, a, _| half_line(a))
        + &run(512, |i, _, _| type_line(i))
        + &run(125, |i, _, _| edge_line(i))
        + &run(40, |i, a, b| data_line(i % 5, a, b))
        + &run(56, |i, _, _| reach_line(i))
        + &run(192, form_line)
}

#[test]
fn encodings() {
    PROGRAM.assert_lines(lines().lines().map(String::from).enumerate());
}

#[test]
#[ignore = "writes the file anew"]
fn write_encodings() {
    PROGRAM.write_lines(lines().lines().map(String::from));
}

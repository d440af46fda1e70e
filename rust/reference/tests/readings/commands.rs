//! The commands that ask the program these questions; `tests_readings` says what
//! they are.

use crate::{Case, Question};
use reference::Class;
use testing::commands::Commands;

/// The program's space, in bytes.
pub const SPACE: usize = 1_048_640;

pub fn all(cases: &[Case]) -> Vec<u8> {
    let mut commands = Commands::new(SPACE);
    for case in cases {
        match &case.question {
            Question::Object(bytes) => ask(&mut commands, b'o', bytes),
            Question::Order(class, bytes) => ask(&mut commands, letter(*class, b'r'), bytes),
            Question::Window(class, base, length) => {
                let halves = [*base as u32, *length, (*base >> 32) as u32];
                commands.ask(letter(*class, b'w'), halves);
            }
        }
    }
    commands.input()
}

/// A question about class 2 has a capital letter.
fn letter(class: Class, letter: u8) -> u8 {
    match class {
        Class::Elf32 => letter,
        Class::Elf64 => letter.to_ascii_uppercase(),
    }
}

/// Makes the space begin with these bytes, and asks about them.
fn ask(commands: &mut Commands, letter: u8, bytes: &[u8]) {
    commands.store(0, bytes);
    commands.ask(letter, [bytes.len() as u32, 0, 0]);
}

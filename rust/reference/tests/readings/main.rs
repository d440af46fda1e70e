//! `crates/tests_readings/stdin` and `stdout`, worked out anew: objects and orders,
//! right ones and wrong ones, and what this fitter reads in them. The program
//! `tests_readings` writes the same lines from the proved functions.

mod commands;
mod given;
mod lines;
mod objects;
mod orders;
mod random;

use std::collections::BTreeMap;

use lines::{answer, line};
use reference::Class;
use testing::compared::{assert_stated, Compared};

const PROGRAM: Compared = Compared("tests_readings");

/// What the program is asked.
pub enum Question {
    Object(Vec<u8>),
    /// An order for an object of this class.
    Order(Class, Vec<u8>),
    /// A base and an image's length.
    Window(Class, u64, u32),
}

/// A question, where it comes from, and its number and place, if these are
/// stated by hand or by a vector.
pub struct Case {
    pub name: String,
    pub question: Question,
    pub stated: Option<(u32, u32)>,
}

impl Case {
    pub fn new(name: impl Into<String>, question: Question, stated: Option<(u32, u32)>) -> Case {
        Case {
            name: name.into(),
            question,
            stated,
        }
    }
}

/// All cases by where they come from; objects before orders before windows, so
/// that what follows differs little from what is there.
fn cases() -> Vec<Case> {
    let mut cases = Vec::new();
    for class in Class::ALL {
        cases.extend(objects::cases(class));
        cases.extend(orders::cases(class));
    }
    cases.extend(given::cases());
    cases.extend(random::cases());
    cases.sort_by_key(|case| match case.question {
        Question::Object(_) => 0,
        Question::Order(..) => 1,
        Question::Window(..) => 2,
    });
    cases
}

#[test]
fn stated_answers() {
    let given = |case: &Case| (case.name.clone(), answer(&case.question), case.stated);
    assert_stated(cases().iter().map(given));
}

#[test]
fn input() {
    PROGRAM.assert_input(&commands::all(&cases()));
}

#[test]
fn lines() {
    let named = |case: &Case| (case.name.clone(), line(&case.question));
    PROGRAM.assert_lines(cases().iter().map(named));
}

/// Every answer occurs, and so does each place of a section up to 9.
#[test]
fn many_answers() {
    let mut counts = BTreeMap::new();
    for case in cases() {
        let kind = match &case.question {
            Question::Object(bytes) => match Class::of(bytes) {
                Some(Class::Elf64) => 'O',
                _ => 'o',
            },
            _ => line(&case.question).as_bytes()[0] as char,
        };
        *counts.entry((kind, answer(&case.question))).or_insert(0) += 1;
    }
    println!("{counts:?}");
    let often = |kind, answer| counts.get(&(kind, answer)).is_some_and(|count| *count >= 5);
    for (object, order, window) in [('o', 'r', 'w'), ('O', 'R', 'W')] {
        let objects = [(0, 0), (4, 0)]
            .into_iter()
            .chain((0..10).map(|place| (5, place)));
        assert!(objects.into_iter().all(|answer| often(object, answer)));
        assert!(often(order, (0, 0)) && often(order, (2, 0)));
        assert!(often(window, (0, 0)) && often(window, (3, 0)));
    }
}

#[test]
#[ignore = "writes the files anew"]
fn write_readings() {
    let cases = cases();
    PROGRAM.write_input(&commands::all(&cases));
    PROGRAM.write_lines(cases.iter().map(|case| line(&case.question)));
}

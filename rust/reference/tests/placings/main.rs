//! `crates/tests_placings/stdin` and `stdout`, worked out anew: pairs of an object
//! and an order, right ones and wrong ones, and how this fitter places them.
//! The program `tests_placings` writes the same lines from the proved functions.

mod given;
mod lines;
mod placements;
mod placing;
mod random;
mod symbols;

use std::collections::BTreeMap;

use lines::{answer, line, place};
use reference::Reason;
use testing::build::{Class, Fit};
use testing::commands::Commands;
use testing::compared::{assert_stated, Compared};

const PROGRAM: Compared = Compared("tests_placings");

/// What the program is asked, and where it comes from. What is stated is
/// stated by hand or by a vector.
#[derive(Clone, Debug)]
pub struct Case {
    pub name: String,
    pub object: Vec<u8>,
    pub order: Vec<u8>,
    pub image_length: usize,
    /// Number and place of the first broken check of 2 to 8.
    pub stated: Option<(u32, u32)>,
    /// Symbols and their values, or why they do not resolve.
    pub values: Vec<(u32, Result<u64, Reason>)>,
    /// What it was made of, unless its bytes were changed since.
    pub fit: Option<Fit>,
}

impl Case {
    pub fn new(name: impl Into<String>, fit: &Fit, stated: (u32, u32)) -> Case {
        Case {
            name: name.into(),
            object: fit.object(),
            order: fit.order(),
            image_length: fit.image.len(),
            stated: Some(stated),
            values: Vec::new(),
            fit: Some(fit.clone()),
        }
    }

    /// The same in class 2, with the same answer. Sums are other ones there, and the
    /// reasons are the same.
    fn in_class_2(&self) -> Option<Case> {
        let fit = self.fit.clone()?.of(Class::Elf64);
        let name = format!("{}, in class 2", self.name);
        let reasons = self.values.iter().filter(|(_, value)| value.is_err());
        Some(Case {
            values: reasons.copied().collect(),
            ..Case::new(name, &fit, self.stated?)
        })
    }
}

fn cases() -> Vec<Case> {
    let mut cases = Vec::new();
    cases.extend(placements::cases());
    cases.extend(symbols::cases());
    let in_class_2: Vec<Case> = cases.iter().filter_map(Case::in_class_2).collect();
    cases.extend(in_class_2);
    for class in Class::ALL {
        cases.extend(placements::in_order(class));
        cases.extend(placing::cases(class));
    }
    cases.extend(symbols::cases_of_class_2());
    cases.extend(given::cases());
    cases.extend(random::cases());
    cases
}

fn commands(cases: &[Case]) -> Vec<u8> {
    let mut commands = Commands::of_pairs();
    for case in cases {
        commands.ask_pair(b'p', &case.object, &case.order, case.image_length);
    }
    commands.input()
}

#[test]
fn stated_answers() {
    let given = |case: &Case| (case.name.clone(), answer(case), case.stated);
    assert_stated(cases().iter().map(given));
}

#[test]
fn stated_values() {
    for case in cases().iter().filter(|case| !case.values.is_empty()) {
        let placed = place(case).expect("a pair that passes");
        for (symbol, stated) in &case.values {
            let value = placed.values[*symbol as usize];
            assert_eq!(value, *stated, "symbol {symbol} of {}", case.name);
        }
    }
}

/// The same as the whole fitter answers, where that answers 2 to 8.
#[test]
fn answers_of_the_whole() {
    for case in cases() {
        let whole = match reference::judge(&case.object, &case.order, case.image_length) {
            Err(answer) if answer.number <= 8 => (answer.number, answer.place),
            _ => (0, 0),
        };
        assert_eq!(answer(&case), whole, "{}", case.name);
    }
}

#[test]
fn input() {
    PROGRAM.assert_input(&commands(&cases()));
}

#[test]
fn lines() {
    PROGRAM.assert_lines(cases().iter().map(|case| (&case.name, line(case))));
}

/// Every answer occurs, and checks 6 to 8 at many places.
#[test]
fn many_answers() {
    let mut numbers = BTreeMap::new();
    let mut places = BTreeMap::new();
    for case in cases() {
        let (number, place) = answer(&case);
        *numbers.entry(number).or_insert(0) += 1;
        *places.entry((number, place)).or_insert(0) += 1;
    }
    println!("{numbers:?}\n{places:?}");
    assert!((2..=8).all(|number| numbers[&number] >= 8));
    assert!([0, 6, 7, 8].iter().all(|number| numbers[number] >= 60));
    let different = |number| places.keys().filter(|answer| answer.0 == number).count();
    assert!((6..=8).all(|number| different(number) >= 8));
}

/// Each reason that a symbol can have by itself occurs in random pairs.
#[test]
fn many_reasons() {
    let mut counts = [0; 8];
    for placed in random::cases().iter().filter_map(|case| place(case).ok()) {
        for reason in placed.values.into_iter().filter_map(Result::err) {
            counts[reason as usize] += 1;
        }
    }
    println!("{counts:?}");
    assert!(counts[1..=6].iter().all(|count| *count >= 20));
}

#[test]
#[ignore = "writes the files anew"]
fn write_placings() {
    let cases = cases();
    PROGRAM.write_input(&commands(&cases));
    PROGRAM.write_lines(cases.iter().map(line));
}

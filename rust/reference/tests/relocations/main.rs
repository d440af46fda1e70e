//! `crates/tests_relocations/stdin` and `stdout`, worked out anew: pairs of an object
//! and an order, right ones and wrong ones, and how this fitter relocates them.
//! The program `tests_relocations` writes the same lines from the proved functions.

mod class_2;
mod data;
mod distances;
mod errors;
mod first;
mod fits;
mod flags;
mod forms;
mod given;
mod halves;
mod lines;
mod padding;
mod pairs;
mod random;
mod shapes;
mod stacks;
mod symbols;
mod types;

use std::collections::BTreeMap;

use lines::{answer, line, relocate};
use reference::install;
use testing::build::{journal, Class, Fit};
use testing::commands::Commands;
use testing::compared::{assert_stated, Compared};
use testing::counts::Counts;
use testing::numbers;
pub use testing::{Numbers as Answer, DONE};

const PROGRAM: Compared = Compared("tests_relocations");

/// A loaded section and its bytes after relocation.
pub type Laid = (usize, Vec<u8>);

/// What the program is asked, and where it comes from. What is stated is
/// stated by hand, by a vector or by a linker.
#[derive(Clone, Debug)]
pub struct Case {
    pub name: String,
    pub object: Vec<u8>,
    pub order: Vec<u8>,
    pub image_length: usize,
    /// Number, place and reason of the first broken check of 2 to 14.
    pub stated: Option<Answer>,
    pub bytes: Vec<Laid>,
    /// What it was made of, if it is the same in class 2.
    fit: Option<Fit>,
}

impl Case {
    pub fn new(name: impl Into<String>, fit: &Fit, stated: Answer) -> Case {
        Case {
            name: name.into(),
            object: fit.object(),
            order: fit.order(),
            image_length: fit.image.len(),
            stated: Some(stated),
            bytes: Vec::new(),
            fit: (fit.class == Class::Elf32).then(|| fit.clone()),
        }
    }

    /// Breaks no check, and section 1 then has these bytes.
    pub fn done(name: impl Into<String>, fit: &Fit, bytes: &[u8]) -> Case {
        Case {
            bytes: vec![(1, bytes.to_vec())],
            ..Case::new(name, fit, DONE)
        }
    }

    /// In class 2 something else follows.
    pub fn only_in_class_1(self) -> Case {
        Case { fit: None, ..self }
    }

    /// The same in class 2, with the same answer and the same bytes.
    fn in_class_2(&self) -> Option<Case> {
        let fit = self.fit.clone()?.of(Class::Elf64);
        let name = format!("{}, in class 2", self.name);
        Some(Case {
            bytes: self.bytes.clone(),
            ..Case::new(name, &fit, self.stated?)
        })
    }
}

fn cases() -> Vec<Case> {
    let mut cases = Vec::new();
    cases.extend(errors::cases());
    cases.extend(types::cases());
    cases.extend(distances::cases());
    cases.extend(halves::cases());
    cases.extend(data::cases());
    cases.extend(shapes::cases());
    cases.extend(symbols::cases());
    cases.extend(forms::cases());
    cases.extend(stacks::cases());
    cases.extend(pairs::cases());
    cases.extend(padding::cases());
    cases.extend(first::cases());
    cases.extend(flags::cases());
    let in_class_2: Vec<Case> = cases.iter().filter_map(Case::in_class_2).collect();
    cases.extend(in_class_2);
    cases.extend(class_2::cases());
    cases.extend(given::cases());
    cases.extend(random::cases());
    cases
}

fn commands(cases: &[Case]) -> Vec<u8> {
    let mut commands = Commands::of_pairs();
    for case in cases {
        commands.ask_pair(b'r', &case.object, &case.order, case.image_length);
    }
    commands.input()
}

#[test]
fn stated_answers() {
    let given = |case: &Case| (case.name.clone(), answer(case), case.stated);
    assert_stated(cases().iter().map(given));
}

#[test]
fn stated_bytes() {
    for case in cases().iter().filter(|case| !case.bytes.is_empty()) {
        let sections = relocate(case).expect("a pair that passes");
        for stated in &case.bytes {
            let is_same = |given: &&Laid| given.0 == stated.0;
            let given = sections.iter().find(is_same).expect("a loaded section");
            assert_eq!(given.1, stated.1, "section {} of {}", stated.0, case.name);
        }
    }
}

/// An install by the whole fitter gives the same answer, and lays the same bytes
/// one section after the other, by address.
#[test]
fn answers_of_the_whole() {
    for case in cases().iter().filter(|case| case.image_length <= 1_048_576) {
        let mut image = vec![0; case.image_length];
        let mut journal = journal(case.image_length);
        let whole = install(&case.object, &case.order, &mut image, &mut journal);
        assert_eq!(answer(case), numbers(whole), "{}", case.name);
        let sections = relocate(case).unwrap_or_default();
        let mut laid = vec![0; case.image_length];
        for (start, (_, bytes)) in lines::starts(case).into_iter().zip(sections) {
            laid[start..start + bytes.len()].copy_from_slice(&bytes);
        }
        assert!(image == laid, "{}", case.name);
    }
}

#[test]
fn input() {
    PROGRAM.assert_input(&commands(&cases()));
}

#[test]
fn lines() {
    PROGRAM.assert_lines(cases().iter().map(|case| (&case.name, line(case))));
}

/// Every reason occurs often, in random pairs too.
#[test]
fn many_reasons() {
    for (cases, often) in [(cases(), 20), (random::cases(), 1)] {
        let mut counts = Counts::default();
        for case in &cases {
            counts.add(answer(case));
        }
        println!("{counts:?}");
        assert!(counts.rarest_reason() >= often, "{:?}", counts.reasons);
    }
}

/// Every answer of 9 to 14 occurs often, and at many places.
#[test]
fn many_answers() {
    let mut numbers = BTreeMap::new();
    let mut places = BTreeMap::new();
    for case in cases() {
        let (number, place, _) = answer(&case);
        *numbers.entry(number).or_insert(0) += 1;
        *places.entry((number, place)).or_insert(0) += 1;
    }
    println!("{numbers:?}\n{places:?}");
    assert!([0, 9, 10, 11, 12, 13, 14].iter().all(|n| numbers[n] >= 30));
    let different = |number| places.keys().filter(|answer| answer.0 == number).count();
    assert!((9..=14).all(|number| different(number) >= 4));
}

#[test]
#[ignore = "writes the files anew"]
fn write_relocations() {
    let cases = cases();
    PROGRAM.write_input(&commands(&cases));
    PROGRAM.write_lines(cases.iter().map(line));
}

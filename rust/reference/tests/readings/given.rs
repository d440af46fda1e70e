//! The objects and orders of the repository: the fits of the vectors, and what
//! real assemblers and compilers made.

use std::fs;
use std::path::Path;

use reference::order::Order;
use reference::Class;

use crate::{Case, Question};
use testing::given::{objects, vectors, Given};

/// What checks 4, 2, 3 and 5 say of a fit whose answer is known. A broken check
/// hides the later ones, and a broken ledger all of them.
struct Stated {
    order: Option<(u32, u32)>,
    window: Option<(u32, u32)>,
    object: Option<(u32, u32)>,
}

fn stated(number: u32, place: u32) -> Stated {
    let (done, answer) = (Some((0, 0)), Some((number, place)));
    let (order, window, object) = match number {
        1 => (None, None, None),
        4 => (None, None, answer),
        2 => (answer, None, None),
        3 => (done, answer, None),
        5 => (done, done, answer),
        _ => (done, done, done),
    };
    Stated {
        order,
        window,
        object,
    }
}

/// Object, order and window of one fit.
fn fit(given: Given) -> Vec<Case> {
    let name = &given.name;
    let stated = stated(given.answer.0, given.answer.1);
    let class = Class::of(&given.object).unwrap_or(Class::Elf32);
    let window = Order::read(&given.order, class).map(|read| {
        let question = Question::Window(class, read.base.0, given.image_length as u32);
        Case::new(name, question, stated.window)
    });
    let mut cases = vec![
        Case::new(name, Question::Object(given.object), stated.object),
        Case::new(name, Question::Order(class, given.order), stated.order),
    ];
    cases.extend(window);
    cases
}

/// A real object cut at every length. Its section headers are its last bytes.
fn cut_object(name: &str, header: usize) -> Vec<Case> {
    let path = format!("../../objects/{name}/{name}.o");
    let whole = fs::read(Path::new(env!("CARGO_MANIFEST_DIR")).join(path)).expect("an object");
    let case = |length: usize| {
        let stated = match length {
            _ if length < header => (4, 0),
            _ if length < whole.len() => (5, 0),
            _ => (0, 0),
        };
        let name = format!("{length} bytes of {name}");
        let question = Question::Object(whole[..length].to_vec());
        Case::new(name, question, Some(stated))
    };
    (0..=whole.len()).map(case).collect()
}

pub fn cases() -> Vec<Case> {
    let fits = vectors().into_iter().chain(objects());
    let cut = [("group", 52), ("rv64-group", 64)];
    let cut = cut
        .into_iter()
        .flat_map(|(name, header)| cut_object(name, header));
    fits.flat_map(fit).chain(cut).collect()
}

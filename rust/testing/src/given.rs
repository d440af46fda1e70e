//! The objects and orders of the repository: the fits of the vectors, and what
//! real assemblers and compilers made.

use std::fs;
use std::path::Path;

use crate::build::{flags_at, Class, RVC};
use crate::vectors::{answer, bytes, bytes_after, lines};
use crate::{numbers, Numbers, DONE};

/// What the image holds before a fit of a real object.
pub const FILL: u8 = 0xA5;

/// What a fit is asked with, besides the ledger, its answer, and the image after
/// it, where that is given.
#[derive(Clone, Debug)]
pub struct Given {
    pub name: String,
    pub object: Vec<u8>,
    pub order: Vec<u8>,
    pub image_length: usize,
    pub answer: Numbers,
    pub image: Option<Vec<u8>>,
}

/// The fits of the vectors.
pub fn vectors() -> Vec<Given> {
    let fits = lines("calls.txt").into_iter();
    fits.filter(|(_, words)| words[0] == "fit")
        .map(|(at, words)| Given {
            name: format!("vector {at}"),
            object: bytes(&words[1]),
            order: bytes(&words[2]),
            image_length: bytes(&words[3]).len(),
            answer: stated(&words[5..8]),
            image: Some(bytes_after(&words[8], &bytes(&words[3]))),
        })
        .collect()
}

/// The answer that three words of a line state.
fn stated(words: &[String]) -> Numbers {
    numbers(answer([&words[0], &words[1], &words[2]]))
}

/// The fits of the histories.
pub fn histories() -> Vec<Given> {
    let mut image_length = 0;
    let mut fits = Vec::new();
    for (at, words) in lines("histories.txt") {
        match words[0].as_str() {
            "start" => image_length = bytes(&words[1]).len(),
            "fit" => fits.push(Given {
                name: format!("history, line {at}"),
                object: bytes(&words[1]),
                order: bytes(&words[2]),
                image_length,
                answer: stated(&words[3..6]),
                image: None,
            }),
            _ => {}
        }
    }
    fits
}

/// The real objects with their orders, and the image as a linker lays it. Where a
/// folder has an answer, the fit is refused, because bit 0 of e_flags is clear; the
/// same object with the bit set follows, and is done as all others are.
pub fn objects() -> Vec<Given> {
    let folder = Path::new(env!("CARGO_MANIFEST_DIR")).join("../../objects");
    let entries = fs::read_dir(&folder).expect("objects");
    let mut names: Vec<String> = entries
        .map(|entry| entry.expect("entry"))
        .filter(|entry| entry.path().is_dir())
        .map(|entry| entry.file_name().into_string().expect("a name"))
        .collect();
    names.sort();
    let read = |name: &String| read_object(&folder.join(name), name);
    names.iter().flat_map(read).collect()
}

fn read_object(folder: &Path, name: &str) -> Vec<Given> {
    let file = |file: &str| fs::read(folder.join(file)).expect("a file");
    let mut done = Given {
        name: name.into(),
        object: file(&format!("{name}.o")),
        order: file("order"),
        image_length: file("image").len(),
        answer: DONE,
        image: Some(file("image")),
    };
    let Ok(answer) = fs::read_to_string(folder.join("answer")) else {
        return vec![done];
    };
    let words: Vec<String> = answer.split_whitespace().map(str::to_string).collect();
    let refused = Given {
        answer: stated(&words),
        image: Some(vec![FILL; done.image_length]),
        ..done.clone()
    };
    let class = Class::of(&done.object).expect("a class");
    done.object[flags_at(class)] |= RVC as u8;
    done.name += ", bit 0 of e_flags set";
    vec![refused, done]
}

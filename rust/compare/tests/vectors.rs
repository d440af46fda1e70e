//! Every line of the shared vectors through the static library: number, place,
//! reason, image after and ledger after.

use compare::call::{Command, Library};
use testing::damage::Input;
use testing::numbers;
use testing::vectors::{answer, bytes, bytes_after, lines};

/// One line of calls.txt: the input, and what follows the last input word.
fn read_call<'w>(words: &[&'w str]) -> (Input, Command, Vec<&'w str>) {
    let (inputs, expected) = words.split_at(words.len() - 5);
    let (object, order, image, ledger, command) = match inputs {
        ["fit", object, order, image, ledger] => (*object, *order, image, ledger, Command::Fit),
        ["take-back", image, ledger] => ("-", "-", image, ledger, Command::TakeBack),
        _ => panic!("a line that is no call"),
    };
    let input = Input {
        object: bytes(object),
        order: bytes(order),
        image: bytes(image),
        journal: bytes(ledger),
    };
    (input, command, expected.to_vec())
}

/// What is wrong with one line of calls.txt, if anything.
fn wrong_call(library: &mut Library, words: &[String]) -> Option<String> {
    let words: Vec<&str> = words.iter().map(String::as_str).collect();
    let (input, command, expected) = read_call(&words);
    let given = match library.compare(&input, command) {
        Ok(given) => given,
        Err(wrong) => return Some(wrong),
    };
    let asked = numbers(answer([expected[0], expected[1], expected[2]]));
    if given.answer != asked {
        return Some(format!("{:?}, and the vector {asked:?}", given.answer));
    }
    if given.image != bytes_after(expected[3], &input.image) {
        return Some("another image".into());
    }
    let another = given.journal != bytes_after(expected[4], &input.journal);
    another.then(|| "another ledger".into())
}

#[test]
fn calls() {
    let library = &mut Library::new();
    let lines = lines("calls.txt");
    let wrong: Vec<String> = lines
        .iter()
        .filter_map(|(at, words)| Some(format!("line {at}: {}", wrong_call(library, words)?)))
        .collect();
    assert!(lines.len() > 300, "the file is whole");
    assert!(wrong.is_empty(), "{}", wrong.join("\n"));
}

/// Plays one line of histories.txt and says what is wrong with it, if anything.
fn wrong_step(library: &mut Library, words: &[String], state: &mut Input) -> Option<String> {
    let words: Vec<&str> = words.iter().map(String::as_str).collect();
    let (command, asked) = match words[..] {
        ["start", image, ledger] => {
            (state.image, state.journal) = (bytes(image), bytes(ledger));
            return None;
        }
        ["end", image, ledger] => {
            let same = state.image == bytes(image) && state.journal == bytes(ledger);
            return (!same).then(|| "another image or ledger".into());
        }
        ["fit", object, order, number, place, reason] => {
            (state.object, state.order) = (bytes(object), bytes(order));
            (Command::Fit, answer([number, place, reason]))
        }
        ["take-back", number, place, reason] => {
            (Command::TakeBack, answer([number, place, reason]))
        }
        _ => panic!("a line that is no call"),
    };
    let asked = numbers(asked);
    let given = match library.compare(state, command) {
        Ok(given) => given,
        Err(wrong) => return Some(wrong),
    };
    (state.image, state.journal) = (given.image, given.journal);
    (given.answer != asked).then(|| format!("{:?}, and the vector {asked:?}", given.answer))
}

#[test]
fn histories() {
    let library = &mut Library::new();
    let lines = lines("histories.txt");
    let mut state = Input {
        object: Vec::new(),
        order: Vec::new(),
        image: Vec::new(),
        journal: Vec::new(),
    };
    let mut wrong = Vec::new();
    for (at, words) in &lines {
        let step = wrong_step(library, words, &mut state);
        wrong.extend(step.map(|what| format!("line {at}: {what}")));
    }
    let ends = lines.iter().filter(|(_, words)| words[0] == "end").count();
    assert!(ends > 10, "the file is whole");
    assert!(wrong.is_empty(), "{}", wrong.join("\n"));
}

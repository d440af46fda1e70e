//! Every line of the vectors, and every real object.

use bench::inputs::Call;
use testing::build::{journal, Class};
use testing::damage::Input;
use testing::given::{objects, FILL};
use testing::lists::{histories, Listed};
use testing::vectors::{answer, bytes, bytes_after, lines};
use testing::{numbers, DONE};

use crate::compare;

/// What is wrong with one line of calls.txt, if anything.
fn wrong_call(words: &[String]) -> Option<String> {
    let words: Vec<&str> = words.iter().map(String::as_str).collect();
    let (inputs, expected) = words.split_at(words.len() - 5);
    let (call, object, order, image, ledger) = match inputs {
        ["fit", object, order, image, ledger] => (Call::Fit, *object, *order, image, ledger),
        ["take-back", image, ledger] => (Call::TakeBack, "-", "-", image, ledger),
        _ => panic!("a line that is no call"),
    };
    let input = Input {
        object: bytes(object),
        order: bytes(order),
        image: bytes(image),
        journal: bytes(ledger),
    };
    let given = match compare(&input, call) {
        Ok(given) => given,
        Err(wrong) => return Some(wrong),
    };
    let asked = answer([expected[0], expected[1], expected[2]]);
    let is_right = given.answer == numbers(asked)
        && given.image == bytes_after(expected[3], &input.image)
        && given.journal == bytes_after(expected[4], &input.journal);
    (!is_right).then(|| format!("{:?}, not as the vector says", given.answer))
}

#[test]
fn calls() {
    let lines = lines("calls.txt");
    let wrong: Vec<String> = lines
        .iter()
        .filter_map(|(at, words)| Some(format!("line {at}: {}", wrong_call(words)?)))
        .collect();
    assert!(lines.len() > 300, "the file is whole");
    assert!(wrong.is_empty(), "{}", wrong.join("\n"));
}

#[test]
fn lists_of_calls() {
    let histories = histories();
    assert!(histories.len() > 10, "the file is whole");
    for given in histories {
        let name = given.name;
        let mut state = Input {
            object: Vec::new(),
            order: Vec::new(),
            image: given.image,
            journal: given.journal,
        };
        for (listed, expected) in given.calls.into_iter().zip(given.answers) {
            let call = match listed {
                Listed::Fit(call) => {
                    (state.object, state.order) = (call.object, call.order);
                    Call::Fit
                }
                Listed::TakeBack => Call::TakeBack,
            };
            let after = compare(&state, call).unwrap_or_else(|wrong| panic!("{name}: {wrong}"));
            assert_eq!(after.answer, numbers(expected), "{name}");
            (state.image, state.journal) = (after.image, after.journal);
        }
        assert_eq!(state.image, given.image_after, "{name}");
        assert_eq!(state.journal, given.journal_after, "{name}");
    }
}

/// The bytes that a linker lays, and all as before after a rollback or a refusal.
#[test]
fn real_objects() {
    let objects = objects();
    for class in Class::ALL {
        let own = objects.iter().map(|given| Class::of(&given.object));
        let count = own.filter(|own| *own == Some(class)).count();
        assert!(count >= 63, "{count} objects, {class:?}");
    }
    for given in objects {
        let name = given.name;
        let fail = |wrong| panic!("{name}: {wrong}");
        let before = Input {
            object: given.object,
            order: given.order,
            image: vec![FILL; given.image_length],
            journal: journal(given.image_length),
        };
        let installed = compare(&before, Call::Fit).unwrap_or_else(fail);
        assert_eq!(installed.answer, given.answer, "{name}");
        assert_eq!(Some(&installed.image), given.image.as_ref(), "{name}");
        if given.answer != DONE {
            assert_eq!(installed.journal, before.journal, "{name}");
            continue;
        }
        let mut after = before.clone();
        (after.image, after.journal) = (installed.image, installed.journal);
        let back = compare(&after, Call::TakeBack).unwrap_or_else(fail);
        assert_eq!(back.answer, DONE, "{name}");
        assert_eq!((back.image, back.journal), (before.image, before.journal));
    }
}

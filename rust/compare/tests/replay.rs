//! Lists of calls through the static library: the histories of the vectors,
//! random and damaged lists, and bytes that are no list.

use aktinoph::{Answer, Calls};
use compare::replay::{as_by_model, code, Replays, State};
use compare::Compare;
use testing::build::{journal, Class, Fit};
use testing::lists::{histories, list, malformed, Listed};
use testing::sample::Call;

const LISTS: u64 = 5_000;

/// The list as the binding builds it.
fn built(listed: &[Listed]) -> Calls {
    let mut calls = Calls::new();
    for call in listed {
        match call {
            Listed::Fit(call) => calls.fit(&call.object, &call.order),
            Listed::TakeBack => calls.take_back(),
        };
    }
    calls
}

/// Every history of the vectors: by both fitters, by the model, and by the
/// binding's own list.
#[test]
fn vectors() {
    let replays = &mut Replays::new();
    let histories = histories();
    assert!(histories.len() > 10, "the file is whole");
    for given in histories {
        let name = given.name;
        let before = State {
            image: given.image,
            journal: given.journal,
            answers: vec![99; given.calls.len()],
        };
        let bytes = list(&given.calls);
        let outcome = replays.compare(&bytes, &before);
        let (is_run, after) = outcome.unwrap_or_else(|wrong| panic!("{name}: {wrong}"));
        assert!(is_run, "{name}");
        let asked: Vec<u64> = given.answers.into_iter().map(code).collect();
        assert_eq!(after.answers, asked, "{name}");
        assert_eq!(after.image, given.image_after, "{name}");
        assert_eq!(after.journal, given.journal_after, "{name}");
        as_by_model(&before, &given.calls, &after.answers)
            .unwrap_or_else(|wrong| panic!("{name}: {wrong}"));

        let calls = built(&given.calls);
        assert_eq!(calls.as_bytes(), bytes, "{name}");
        assert_eq!(calls.len(), given.calls.len(), "{name}");
        let (mut image, mut ledger) = (before.image, before.journal);
        let answers = aktinoph::replay(&calls, &mut image, &mut ledger);
        let codes = asked.into_iter().map(Answer::from_code);
        assert!(codes.eq(answers), "{name}");
        assert_eq!((image, ledger), (after.image, after.journal), "{name}");
    }
}

/// A fit that is done, and what it is done on.
fn good(class: Class, places: usize) -> (Call, State) {
    let fit = Fit::code(0x1000, &[1, 2, 3, 4, 5, 6, 7, 8], &[], &[]).of(class);
    let call = Call {
        object: fit.object(),
        order: fit.order(),
    };
    let before = State {
        image: fit.image,
        journal: journal(100),
        answers: vec![99; places],
    };
    (call, before)
}

#[test]
fn malformed_lists() {
    let replays = &mut Replays::new();
    for class in Class::ALL {
        for places in [0, 2, 3, 4] {
            let (call, before) = good(class, places);
            for (what, bytes) in malformed(&call) {
                let outcome = replays.compare(&bytes, &before);
                let outcome = outcome.unwrap_or_else(|wrong| panic!("{what}: {wrong}"));
                assert_eq!(outcome, (false, before.clone()), "{what}");
            }
        }
    }
}

/// Too few, just enough and more, also for a list of no call.
#[test]
fn places() {
    let replays = &mut Replays::new();
    for count in 0..4 {
        for places in 0..6 {
            let class = Class::ALL[places % 2];
            let (call, before) = good(class, places);
            let calls = vec![Listed::Fit(call); count];
            let outcome = replays.compare(&list(&calls), &before);
            let (is_run, after) = outcome.expect("no difference");
            assert_eq!(is_run, count <= places, "{count} calls, {places} places");
            let made = if is_run { count } else { 0 };
            assert_eq!(after.answers[..made], vec![0; made]);
            assert_eq!(after.answers[made..], vec![99; places - made]);
            assert_eq!(after.journal[0], made as u8, "as many fits stand");
        }
    }
}

/// Seventeen fits, now of class 1 and now of class 2, and eighteen takings-back,
/// in one list.
#[test]
fn a_full_ledger() {
    let (call, before) = good(Class::Elf32, 35);
    let (other, _) = good(Class::Elf64, 35);
    let before = State {
        journal: journal(1_000),
        ..before
    };
    let both = [call, other].map(Listed::Fit);
    let mut calls: Vec<Listed> = both.into_iter().cycle().take(17).collect();
    calls.extend(vec![Listed::TakeBack; 18]);
    let outcome = Replays::new().compare(&list(&calls), &before);
    let (is_run, after) = outcome.expect("no difference");
    assert!(is_run);
    let asked = [vec![0; 16], vec![15], vec![0; 16], vec![16; 2]].concat();
    assert_eq!(after.answers, asked);
    assert_eq!((after.image, after.journal), (before.image, before.journal));
}

#[test]
fn random_lists() {
    let mut compare = Compare::new();
    for seed in 0..LISTS {
        let done = compare.list(seed);
        done.unwrap_or_else(|wrong| panic!("list {seed}: {wrong}"));
    }
    let seen = compare.lists;
    println!("{} run, {} not: {:?}", seen.run, seen.not_run, seen.answers);
    assert!(seen.run > LISTS / 2 && seen.not_run > LISTS / 10);
    for number in 0..17 {
        assert!(seen.answers.numbers[number] >= 10, "answer {number}");
    }
    assert!(seen.answers.rarest_reason() >= 5, "every reason occurs");
}

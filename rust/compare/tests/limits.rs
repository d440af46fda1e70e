//! Every limit of both classes through the static library: at each, and one past
//! it.

use compare::call::{Command, Library};
use testing::build::{journal, Class, Fit};
use testing::damage::Input;
use testing::limits::limits;
use testing::DONE;

#[test]
fn at_each_and_one_past_it() {
    let library = &mut Library::new();
    for limit in limits() {
        let name = limit.name;
        let outcome = library.compare(&limit.input, Command::Fit);
        let outcome = outcome.unwrap_or_else(|wrong| panic!("{name}: {wrong}"));
        assert_eq!(outcome.answer, limit.answer, "{name}");
    }
}

/// Sixteen fits stand, and no seventeenth; then seventeen takings-back.
#[test]
fn ledger_entries() {
    let library = &mut Library::new();
    for class in Class::ALL {
        let mut state = Input::from(&Fit::code(0x1000, &[0; 8], &[], &[]).of(class));
        state.journal = journal(1_000);
        let first = state.clone();
        for (command, last) in [(Command::Fit, (15, 0, 0)), (Command::TakeBack, (16, 0, 0))] {
            for turn in 0..17 {
                let outcome = library.compare(&state, command).expect("no difference");
                let expected = if turn < 16 { DONE } else { last };
                assert_eq!(outcome.answer, expected, "{command:?} {turn}");
                (state.image, state.journal) = (outcome.image, outcome.journal);
            }
        }
        assert_eq!(state.image, first.image);
        assert_eq!(state.journal, first.journal);
    }
}

/// The longest image that a taking-back takes, and one byte more.
#[test]
fn image_of_a_taking_back() {
    let library = &mut Library::new();
    for class in Class::ALL {
        let mut state = Input::from(&Fit::code(0x1000, &[0; 8], &[], &[]).of(class));
        state.image.resize(1_048_576, 0x5A);
        let first = state.clone();
        let outcome = library
            .compare(&state, Command::Fit)
            .expect("no difference");
        assert_eq!(outcome.answer, DONE, "{class:?}");
        (state.image, state.journal) = (outcome.image, outcome.journal);
        state.image.push(0);
        let outcome = library
            .compare(&state, Command::TakeBack)
            .expect("no difference");
        assert_eq!(outcome.answer, (3, 0, 0), "{class:?}");
        state.image.pop();
        let outcome = library
            .compare(&state, Command::TakeBack)
            .expect("no difference");
        assert_eq!(outcome.answer, DONE, "{class:?}");
        assert!(outcome.image == first.image && outcome.journal == first.journal);
    }
}

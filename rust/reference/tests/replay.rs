//! Lists of calls: which bytes are one, what is made of it, and that nothing
//! changes where it is not run.

use reference::calls::{read, Call};
use reference::history::History;
use reference::{install, replay, rollback, Answer};
use testing::build::{Class, Fit};
use testing::lists::{histories, list, malformed, some_list, wound_list, Listed};
use testing::random::Random;
use testing::sample::{self, start};

/// What a place holds before the list, and what no call answers.
const UNTOUCHED: Answer = Answer::new(99, 99);

/// "no fit stands"
const NOTHING_STANDS: Answer = Answer::new(16, 0);

/// What a list is run on, and what it leaves.
#[derive(Clone, PartialEq, Eq, Debug)]
struct State {
    image: Vec<u8>,
    journal: Vec<u8>,
    answers: Vec<Answer>,
}

impl State {
    /// For fits of `good`, with room for two of them.
    fn new(places: usize) -> State {
        State {
            image: good_fit().image,
            journal: testing::build::journal(2 * CODE.len()),
            answers: vec![UNTOUCHED; places],
        }
    }

    fn replay(&mut self, list: &[u8]) -> bool {
        replay(list, &mut self.image, &mut self.journal, &mut self.answers)
    }

    /// One call, which is not part of a list.
    fn make(&mut self, call: &Listed) -> Answer {
        let (image, journal) = (&mut self.image, &mut self.journal);
        match call {
            Listed::Fit(call) => install(&call.object, &call.order, image, journal),
            Listed::TakeBack => rollback(image, journal),
        }
    }
}

const CODE: [u8; 8] = [1, 2, 3, 4, 5, 6, 7, 8];

fn good_fit() -> Fit {
    Fit::code(0x1000, &CODE, &[], &[])
}

/// A call that is done.
fn good() -> sample::Call {
    sample::Call {
        object: good_fit().object(),
        order: good_fit().order(),
    }
}

fn fit() -> Listed {
    Listed::Fit(good())
}

/// Panics unless the list is not run, with any number of places.
fn assert_not_run(what: &str, list: &[u8]) {
    for places in [0, 1, 2, 3, 50] {
        let mut state = State::new(places);
        assert!(!state.replay(list), "{what}");
        assert_eq!(state, State::new(places), "{what}");
    }
}

#[test]
fn no_call() {
    for places in 0..3 {
        let mut state = State::new(places);
        assert!(state.replay(&[0; 4]));
        assert_eq!(state, State::new(places));
    }
}

#[test]
fn calls_are_made_in_their_order() {
    let mut state = State::new(3);
    assert!(state.replay(&list(&[fit(), Listed::TakeBack, Listed::TakeBack])));
    assert_eq!(state.answers, [Answer::DONE, Answer::DONE, NOTHING_STANDS]);
    assert_eq!(state.image, State::new(0).image);
    assert_eq!(state.journal, State::new(0).journal);

    let mut state = State::new(3);
    assert!(state.replay(&list(&[Listed::TakeBack, Listed::TakeBack, fit()])));
    assert_eq!(
        state.answers,
        [NOTHING_STANDS, NOTHING_STANDS, Answer::DONE]
    );
    assert_eq!(&state.image[64..72], CODE);
}

/// Fits of both classes stand in one image, and are taken back one by one.
#[test]
fn fits_of_both_classes() {
    let other = good_fit().of(Class::Elf64);
    let other = Listed::Fit(sample::Call {
        object: other.object(),
        order: other.order(),
    });
    for calls in [[fit(), other.clone()], [other, fit()]] {
        let back = [Listed::TakeBack, Listed::TakeBack, Listed::TakeBack];
        let calls = [&calls[..], &back].concat();
        let mut state = State::new(5);
        assert!(state.replay(&list(&calls)));
        let done = Answer::DONE;
        assert_eq!(state.answers, [done, done, done, done, NOTHING_STANDS]);
        assert_eq!(state.image, State::new(0).image);
        assert_eq!(state.journal, State::new(0).journal);
    }
}

/// An order that is malformed, an object that is not one, and no room: the
/// calls behind them are made all the same.
#[test]
fn refused_calls_do_not_stop_it() {
    let [mut no_order, mut no_object] = [good(), good()];
    no_order.order.clear();
    no_object.object.clear();
    let calls = [
        Listed::Fit(no_order),
        fit(),
        Listed::Fit(no_object),
        fit(),
        fit(),
        Listed::TakeBack,
        fit(),
    ];
    let mut state = State::new(calls.len());
    assert!(state.replay(&list(&calls)));
    let numbers: Vec<u32> = state.answers.iter().map(|answer| answer.number).collect();
    assert_eq!(numbers, [2, 0, 4, 0, 15, 0, 0]);
    let mut one_by_one = State::new(0);
    one_by_one.answers = calls.iter().map(|call| one_by_one.make(call)).collect();
    assert_eq!(state, one_by_one);
}

/// A ledger that is unsound is every call's answer, and no reason not to run.
#[test]
fn unsound_ledger() {
    let mut state = State::new(2);
    state.journal[0] = 17;
    let before = state.clone();
    assert!(state.replay(&list(&[fit(), Listed::TakeBack])));
    assert_eq!(state.answers, [Answer::new(1, 0); 2]);
    assert_eq!((state.image, state.journal), (before.image, before.journal));
}

#[test]
fn malformed_lists_change_nothing() {
    for (what, bytes) in malformed(&good()) {
        assert_eq!(read(&bytes), None, "{what}");
        assert_not_run(&what, &bytes);
    }
}

/// One place too few, just enough, and more: the other ones stay.
#[test]
fn places() {
    let calls = [fit(), Listed::TakeBack, fit()];
    let bytes = list(&calls);
    for places in 0..3 {
        let mut state = State::new(places);
        assert!(!state.replay(&bytes), "{places} places");
        assert_eq!(state, State::new(places));
    }
    for places in 3..6 {
        let mut state = State::new(places);
        assert!(state.replay(&bytes), "{places} places");
        assert_eq!(state.answers[..3], [Answer::DONE; 3]);
        assert_eq!(state.answers[3..], vec![UNTOUCHED; places - 3]);
    }
}

/// "any object and any order": none is too short or too long for a list.
#[test]
fn parts_are_those_of_the_list() {
    let order = vec![7; 100_000];
    for length in [0, 1, 2, 3, 4, 5, 70_000] {
        let object = vec![9; length];
        let call = sample::Call {
            object: object.clone(),
            order: order.clone(),
        };
        let bytes = list(&[Listed::TakeBack, Listed::Fit(call), Listed::TakeBack]);
        let install = Call::Install {
            object: &object,
            order: &order,
        };
        let calls = [Call::Rollback, install, Call::Rollback];
        assert_eq!(read(&bytes), Some(calls.to_vec()));
    }
}

#[test]
fn vectors() {
    let histories = histories();
    assert!(histories.len() > 10, "the file is whole");
    for given in histories {
        let mut state = State {
            image: given.image,
            journal: given.journal,
            answers: vec![UNTOUCHED; given.calls.len()],
        };
        assert!(state.replay(&list(&given.calls)), "{}", given.name);
        assert_eq!(state.answers, given.answers, "{}", given.name);
        assert_eq!(state.image, given.image_after, "{}", given.name);
        assert_eq!(state.journal, given.journal_after, "{}", given.name);
    }
}

/// What the calls answer and leave one by one, and what the model answers.
#[test]
fn random_lists() {
    for seed in 0..1_000 {
        let random = &mut Random::new(seed);
        let (image, journal) = start(random);
        let calls = some_list(random, image.len());
        let mut model = History::start(&image, journal.len());
        let mut state = State {
            image,
            journal,
            answers: vec![UNTOUCHED; calls.len()],
        };
        let mut one_by_one = state.clone();
        one_by_one.answers = calls.iter().map(|call| one_by_one.make(call)).collect();
        assert!(state.replay(&list(&calls)), "seed {seed}");
        assert_eq!(state, one_by_one, "seed {seed}");
        let by_model = calls.iter().map(|call| match call {
            Listed::Fit(call) => model.install(&call.object, &call.order),
            Listed::TakeBack => model.rollback(),
        });
        assert!(by_model.eq(state.answers), "seed {seed}");
    }
}

/// Damaged bytes are a list or change nothing, whatever they are.
#[test]
fn damaged_lists() {
    let mut run = [0, 0];
    for seed in 0..2_000 {
        let random = &mut Random::new(seed);
        let mut bytes = list(&some_list(random, State::new(0).image.len()));
        wound_list(random, &mut bytes);
        let before = State::new(random.below(50));
        let mut state = before.clone();
        let is_run = state.replay(&bytes);
        let enough = read(&bytes).is_some_and(|calls| calls.len() <= before.answers.len());
        assert_eq!(is_run, enough, "seed {seed}");
        assert!(is_run || state == before, "seed {seed}");
        run[usize::from(is_run)] += 1;
    }
    assert!(run[0] > 200 && run[1] > 200, "{run:?}");
}

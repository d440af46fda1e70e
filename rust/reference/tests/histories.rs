//! Long lists of fits and takings-back against the model in `history`, and all
//! that document 01 says holds after such a list.

use reference::history::History;
use reference::journal::Standing;
use reference::{install, rollback, Answer};
use testing::counts::Counts;
use testing::numbers;
use testing::random::Random;
use testing::sample::{some_call, start, Call};

const HISTORIES: u64 = 4_000;

/// What the program works on.
#[derive(Clone)]
struct Slot {
    image: Vec<u8>,
    journal: Vec<u8>,
}

impl Slot {
    fn install(&mut self, call: &Call) -> Answer {
        install(
            &call.object,
            &call.order,
            &mut self.image,
            &mut self.journal,
        )
    }

    fn rollback(&mut self) -> Answer {
        rollback(&mut self.image, &mut self.journal)
    }

    /// A sound ledger's n, k and first n entries.
    fn standing(&self) -> Standing {
        Standing::read(&self.journal, self.image.len()).expect("the ledger is sound")
    }
}

/// What the lists reach.
#[derive(Default)]
struct Seen {
    answers: Counts,
    deepest: usize,
}

/// Plays one list on the program and on the history, and gives the standing
/// fits, oldest first.
fn play(random: &mut Random, slot: &mut Slot, model: &mut History, seen: &mut Seen) -> Vec<Call> {
    let mut standing = Vec::new();
    let one_rollback_in = random.pick(&[2, 3, 8]);
    for _ in 0..random.below(45) {
        let answer = if random.one_in(one_rollback_in) {
            let answer = slot.rollback();
            assert_eq!(answer, model.rollback());
            assert_eq!(answer.number == 16, standing.is_empty());
            standing.pop();
            answer
        } else {
            let call = some_call(random, slot.image.len());
            let answer = slot.install(&call);
            assert_eq!(answer, model.install(&call.object, &call.order));
            standing.extend((answer == Answer::DONE).then_some(call));
            answer
        };
        seen.answers.add(numbers(answer));
        seen.deepest = seen.deepest.max(standing.len());
    }
    standing
}

/// "Equal to the history's are: ... after the list, the whole image; the
/// ledger's n and k; and its first n entries".
fn compare(slot: &Slot, model: &History) {
    let standing = slot.standing();
    assert_eq!(slot.image, model.image());
    assert_eq!(standing.spans.len(), model.n());
    assert_eq!(standing.old_bytes as u64, model.k());
    assert_eq!(standing.spans, model.spans().collect::<Vec<_>>());
}

/// "The standing fits alone, asked for in their order from the same start, are
/// all done and lead to the same image, n, k and first n entries, and any next
/// call gets the same answer after either list."
fn check_replay(random: &mut Random, first: &Slot, slot: &Slot, standing: &[Call]) {
    let mut replay = first.clone();
    for call in standing {
        assert_eq!(replay.install(call), Answer::DONE);
    }
    assert_eq!(replay.image, slot.image);
    assert_eq!(replay.standing(), slot.standing());
    let next = some_call(random, slot.image.len());
    assert_eq!(replay.clone().install(&next), slot.clone().install(&next));
    assert_eq!(replay.rollback(), slot.clone().rollback());
}

/// Everything taken back: the starting image, and no fit stands.
fn check_empty_again(first: &Slot, slot: &mut Slot, standing: &[Call]) {
    for _ in standing {
        assert_eq!(slot.rollback(), Answer::DONE);
    }
    assert_eq!(slot.image, first.image);
    assert_eq!(slot.rollback().number, 16);
}

#[test]
fn long_histories() {
    let mut seen = Seen::default();
    for seed in 0..HISTORIES {
        let random = &mut Random::new(seed);
        let (image, journal) = start(random);
        let first = Slot { image, journal };
        let mut slot = first.clone();
        let mut model = History::start(&first.image, first.journal.len());
        let standing = play(random, &mut slot, &mut model, &mut seen);
        compare(&slot, &model);
        check_replay(random, &first, &slot, &standing);
        check_empty_again(&first, &mut slot, &standing);
    }
    println!("{:?}, most standing: {}", seen.answers, seen.deepest);
    assert_eq!(seen.deepest, 16, "a full ledger occurs");
    for (number, count) in seen.answers.numbers.iter().enumerate() {
        // The ledger stays sound, so that 1 never occurs.
        assert_eq!(*count > 0, number != 1, "answer {number}");
    }
    assert!(seen.answers.rarest_reason() > 0, "every reason occurs");
}

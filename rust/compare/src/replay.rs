//! A list of calls, by the library in watched memory and by the reference.

use crate::arena::{numbers, Arena, Layout};
use crate::call::held;
use crate::inputs::Pool;
use reference::history::History;
use reference::Answer;
use testing::counts::Counts;
use testing::lists::{list, some_list, wound_list, Listed};
use testing::random::Random;
use testing::sample::{start, Call};

/// What a list is run on, and what it leaves.
#[derive(Clone, PartialEq, Eq, Debug)]
pub struct State {
    pub image: Vec<u8>,
    pub journal: Vec<u8>,
    /// The codes of the answers.
    pub answers: Vec<u64>,
}

/// Whether a list was run, and what it left.
pub type Outcome = (bool, State);

/// As the header has it: the number in the low eight bits, the reason in the next
/// eight, the place in the upper 32.
pub fn code(answer: Answer) -> u64 {
    let [number, place, reason] = [answer.number, answer.place, answer.reason].map(u64::from);
    place << 32 | reason << 8 | number
}

/// A list by the reference.
pub fn reference(list: &[u8], before: &State) -> Outcome {
    const UNTOUCHED: Answer = Answer::new(u32::MAX, 0);
    let mut after = before.clone();
    let mut answers = vec![UNTOUCHED; before.answers.len()];
    let is_run = reference::replay(list, &mut after.image, &mut after.journal, &mut answers);
    for (place, answer) in after.answers.iter_mut().zip(answers) {
        if answer != UNTOUCHED {
            *place = code(answer);
        }
    }
    (is_run, after)
}

/// Memory for the four buffers of a list.
pub struct Replays {
    calls: Arena,
    image: Arena,
    journal: Arena,
    answers: Arena,
    /// All four, one directly behind the other.
    together: Arena,
}

impl Replays {
    #[allow(clippy::new_without_default)]
    pub fn new() -> Replays {
        Replays {
            calls: Arena::new(),
            image: Arena::new(),
            journal: Arena::new(),
            answers: Arena::new(),
            together: Arena::new(),
        }
    }

    /// A list by the library, or which memory it touched that is not its own.
    pub fn run(&mut self, list: &[u8], before: &State, layout: Layout) -> Result<Outcome, String> {
        self.calls.fill(list, layout);
        self.image.fill(&before.image, layout);
        self.journal.fill(&before.journal, layout);
        self.answers.fill(&bytes(&before.answers), layout);
        let is_run = aktinoph::replay_bytes(
            self.calls.bytes(),
            self.image.bytes_mut(),
            self.journal.bytes_mut(),
            numbers(self.answers.bytes_mut()),
        );
        for (arena, name) in [
            (&self.calls, "list"),
            (&self.image, "image"),
            (&self.journal, "ledger"),
            (&self.answers, "answers"),
        ] {
            held(arena.guards_hold(), || {
                format!("bytes beside the {name} changed")
            })?;
        }
        held(self.calls.bytes() == list, || "the list changed".into())?;
        let after = State {
            image: self.image.bytes().to_vec(),
            journal: self.journal.bytes().to_vec(),
            answers: numbers(self.answers.bytes_mut()).to_vec(),
        };
        Ok((is_run, after))
    }

    /// As `run`, with the four buffers in one piece, and the image behind or
    /// before the ledger. The answers are first, at a multiple of eight.
    pub fn run_together(
        &mut self,
        list: &[u8],
        before: &State,
        image_first: bool,
    ) -> Result<Outcome, String> {
        let (first, second) = match image_first {
            true => (&before.image, &before.journal),
            false => (&before.journal, &before.image),
        };
        let answers = bytes(&before.answers);
        let whole = [&answers[..], first, second, list].concat();
        self.together.fill(&whole, Layout::Between);
        let (answers, rest) = self.together.bytes_mut().split_at_mut(answers.len());
        let (first, rest) = rest.split_at_mut(first.len());
        let (second, calls) = rest.split_at_mut(second.len());
        let (image, journal) = match image_first {
            true => (first, second),
            false => (second, first),
        };
        let answers = numbers(answers);
        let is_run = aktinoph::replay_bytes(calls, image, journal, answers);
        held(calls == list, || "the list changed".into())?;
        let after = State {
            image: image.to_vec(),
            journal: journal.to_vec(),
            answers: answers.to_vec(),
        };
        held(self.together.guards_hold(), || {
            "bytes beside the four changed".into()
        })?;
        Ok((is_run, after))
    }

    /// A list by the reference, and in every layout by the library: what both
    /// leave, or what differs.
    pub fn compare(&mut self, list: &[u8], before: &State) -> Result<Outcome, String> {
        let expected = reference(list, before);
        for layout in Layout::ALL {
            let wrong = |what: String| format!("{layout:?}: {what}");
            let given = self.run(list, before, layout).map_err(wrong)?;
            same(before, &given, &expected).map_err(wrong)?;
        }
        for image_first in [true, false] {
            let wrong = |what: String| format!("together, {image_first}: {what}");
            let given = self.run_together(list, before, image_first);
            same(before, &given.map_err(wrong)?, &expected).map_err(wrong)?;
        }
        Ok(expected)
    }
}

fn bytes(answers: &[u64]) -> Vec<u8> {
    let bytes = answers.iter().flat_map(|answer| answer.to_ne_bytes());
    bytes.collect()
}

/// That the library's outcome is the reference's, or what is wrong with it.
fn same(before: &State, given: &Outcome, expected: &Outcome) -> Result<(), String> {
    let ((is_run, given), (asked, expected)) = (given, expected);
    held(is_run == asked, || {
        format!("run: {is_run}, and by the reference {asked}")
    })?;
    held(*is_run || given == before, || {
        "not run, but something changed".into()
    })?;
    held(given.answers == expected.answers, || {
        let (given, expected) = (&given.answers, &expected.answers);
        format!("{given:x?}, and the reference {expected:x?}")
    })?;
    held(given.image == expected.image, || "another image".into())?;
    held(given.journal == expected.journal, || {
        "another ledger".into()
    })
}

/// What the random lists reached.
#[derive(Default)]
pub struct Seen {
    pub run: u64,
    pub not_run: u64,
    pub answers: Counts,
}

/// Plays one random list, whose bytes may be damaged, with places for its
/// answers or too few. Of a whole list the answers are the model's too.
pub fn play(
    replays: &mut Replays,
    pool: &Pool,
    random: &mut Random,
    seen: &mut Seen,
) -> Result<(), String> {
    let from_start = random.below(3) != 0;
    let (image, journal, calls) = match from_start {
        true => {
            let (image, journal) = start(random);
            let calls = some_list(random, image.len());
            (image, journal, calls)
        }
        false => any_list(pool, random),
    };
    let mut bytes = list(&calls);
    let is_whole = random.below(3) != 0;
    if !is_whole {
        wound_list(random, &mut bytes);
    }
    let places = match random.below(8) {
        0 => random.below(calls.len() + 1),
        1..=4 => calls.len(),
        _ => calls.len() + random.below(5),
    };
    let before = State {
        image,
        journal,
        answers: (0..places).map(|_| random.u64()).collect(),
    };
    let (is_run, after) = replays.compare(&bytes, &before)?;
    if is_run && is_whole {
        let given = &after.answers[..calls.len()];
        if from_start {
            as_by_model(&before, &calls, given)?;
        }
        for code in given {
            let answer = aktinoph::Answer::from_code(*code);
            seen.answers.add(answer.numbers());
        }
    }
    match is_run {
        true => seen.run += 1,
        false => seen.not_run += 1,
    }
    Ok(())
}

/// Up to three calls of any kind, damaged ones too, on any image and ledger.
fn any_list(pool: &Pool, random: &mut Random) -> (Vec<u8>, Vec<u8>, Vec<Listed>) {
    let (first, _) = pool.input(random);
    let calls = (0..random.below(4)).map(|_| match random.below(4) {
        0 => Listed::TakeBack,
        1 => Listed::Fit(Call {
            object: first.object.clone(),
            order: first.order.clone(),
        }),
        _ => {
            let (other, _) = pool.input(random);
            Listed::Fit(Call {
                object: other.object,
                order: other.order,
            })
        }
    });
    let calls = calls.collect();
    (first.image, first.journal, calls)
}

/// "Equal to the history's are: every answer". No fit stands before the list.
pub fn as_by_model(before: &State, calls: &[Listed], answers: &[u64]) -> Result<(), String> {
    let mut model = History::start(&before.image, before.journal.len());
    for (turn, (call, given)) in calls.iter().zip(answers).enumerate() {
        let asked = code(match call {
            Listed::Fit(call) => model.install(&call.object, &call.order),
            Listed::TakeBack => model.rollback(),
        });
        held(*given == asked, || {
            format!("turn {turn}: {given:#x}, the model {asked:#x}")
        })?;
    }
    Ok(())
}

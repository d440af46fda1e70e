//! Random histories: lists of calls on one image and ledger, by both fitters
//! and by the model of the reference.

use crate::arena::Layout;
use crate::call::{Command, Library};
use reference::history::History;
use reference::journal::Standing;
use testing::counts::Counts;
use testing::damage::Input;
use testing::random::Random;
use testing::sample::{some_call, start, Call};
use testing::{numbers, Numbers, DONE};

/// What the histories reached.
#[derive(Default)]
pub struct Seen {
    pub answers: Counts,
    pub most_standing: usize,
}

/// Plays one history. Every call is compared; then the end is compared with the
/// model, the standing fits are done anew from the start, and all taken back.
pub fn play(library: &mut Library, random: &mut Random, seen: &mut Seen) -> Result<(), String> {
    let (image, journal) = start(random);
    let mut state = Input {
        object: Vec::new(),
        order: Vec::new(),
        image,
        journal,
    };
    let first = state.clone();
    let mut model = History::start(&first.image, first.journal.len());
    let standing = play_list(library, random, seen, &mut state, &mut model)?;
    compare_end(&state, &model)?;
    let next = some_call(random, state.image.len());
    replay(library, first.clone(), &state, &standing, &next)?;
    take_all_back(library, state, &first, standing.len())
}

/// The list itself: the fits that stand after it, oldest first.
fn play_list(
    library: &mut Library,
    random: &mut Random,
    seen: &mut Seen,
    state: &mut Input,
    model: &mut History,
) -> Result<Vec<Call>, String> {
    let mut standing = Vec::new();
    let one_rollback_in = random.pick(&[2, 3, 8]);
    for turn in 0..random.below(45) {
        let command = match random.one_in(one_rollback_in) {
            true => Command::TakeBack,
            false => Command::Fit,
        };
        let call = some_call(random, state.image.len());
        let answer = step(library, state, command, &call)?;
        let by_model = match command {
            Command::Fit => model.install(&call.object, &call.order),
            Command::TakeBack => model.rollback(),
        };
        if answer != numbers(by_model) {
            return Err(format!("turn {turn}: {answer:?}, the model {by_model:?}"));
        }
        match command {
            Command::Fit => standing.extend((answer == DONE).then_some(call)),
            Command::TakeBack => drop(standing.pop()),
        }
        seen.answers.add(answer);
        seen.most_standing = seen.most_standing.max(standing.len());
    }
    Ok(standing)
}

/// One compared call on the state.
fn step(
    library: &mut Library,
    state: &mut Input,
    command: Command,
    call: &Call,
) -> Result<Numbers, String> {
    state.object.clone_from(&call.object);
    state.order.clone_from(&call.order);
    let outcome = library.compare(state, command)?;
    state.image = outcome.image;
    state.journal = outcome.journal;
    Ok(outcome.answer)
}

/// "Equal to the history's are: ... after the list, the whole image; the
/// ledger's n and k; and its first n entries".
fn compare_end(state: &Input, model: &History) -> Result<(), String> {
    let standing = read(state)?;
    if state.image != model.image() {
        return Err("the image is not the model's".into());
    }
    let same =
        standing.old_bytes as u64 == model.k() && standing.spans.iter().copied().eq(model.spans());
    same.then_some(())
        .ok_or("the ledger is not the model's".into())
}

fn read(state: &Input) -> Result<Standing, String> {
    Standing::read(&state.journal, state.image.len()).ok_or("the ledger is not sound".into())
}

/// "The standing fits alone, asked for in their order from the same start, are
/// all done and lead to the same image, n, k and first n entries, and any next
/// call gets the same answer after either list."
fn replay(
    library: &mut Library,
    mut state: Input,
    played: &Input,
    standing: &[Call],
    next: &Call,
) -> Result<(), String> {
    for call in standing {
        let answer = step(library, &mut state, Command::Fit, call)?;
        if answer != DONE {
            return Err(format!("a standing fit alone: {answer:?}"));
        }
    }
    if state.image != played.image || read(&state)? != read(played)? {
        return Err("the standing fits alone lead elsewhere".into());
    }
    for command in [Command::Fit, Command::TakeBack] {
        let alone = step(library, &mut state.clone(), command, next)?;
        let answer = step(library, &mut played.clone(), command, next)?;
        if alone != answer {
            return Err(format!("next: {answer:?}, after the standing {alone:?}"));
        }
    }
    Ok(())
}

/// Everything taken back by the library: the starting image, and then 16.
fn take_all_back(
    library: &mut Library,
    mut state: Input,
    first: &Input,
    standing: usize,
) -> Result<(), String> {
    for turn in 0..=standing {
        let layout = Layout::ALL[turn % 3];
        let outcome = library.call(&state, Command::TakeBack, layout)?;
        let expected = if turn < standing { DONE } else { (16, 0, 0) };
        if outcome.answer != expected {
            return Err(format!("taking all back: {:?}", outcome.answer));
        }
        state.image = outcome.image;
        state.journal = outcome.journal;
    }
    let same = state.image == first.image;
    same.then_some(())
        .ok_or("all taken back, and another image".into())
}

//! The comparison fitter against the reference: the answer of every call, and every
//! byte of image and ledger after it.

mod hostile;
mod limits;
mod random;
mod vectors;

use bench::fitter::{comparison_fit, comparison_take_back};
use bench::inputs::Call;
use testing::damage::Input;
use testing::{numbers, Numbers};

/// What a call leaves: the answer, image and ledger.
#[derive(Clone, PartialEq, Eq, Debug)]
struct Outcome {
    answer: Numbers,
    image: Vec<u8>,
    journal: Vec<u8>,
}

fn by_comparison(input: &Input, call: Call) -> Outcome {
    let (mut image, mut journal) = (input.image.clone(), input.journal.clone());
    let answer = match call {
        Call::Fit => comparison_fit(&input.object, &input.order, &mut image, &mut journal),
        Call::TakeBack => comparison_take_back(&mut image, &mut journal),
    };
    Outcome {
        answer: answer.numbers(),
        image,
        journal,
    }
}

fn by_reference(input: &Input, call: Call) -> Outcome {
    let (mut image, mut journal) = (input.image.clone(), input.journal.clone());
    let answer = match call {
        Call::Fit => reference::install(&input.object, &input.order, &mut image, &mut journal),
        Call::TakeBack => reference::rollback(&mut image, &mut journal),
    };
    Outcome {
        answer: numbers(answer),
        image,
        journal,
    }
}

/// What both leave, or what differs.
fn compare(input: &Input, call: Call) -> Result<Outcome, String> {
    let (given, expected) = (by_comparison(input, call), by_reference(input, call));
    if given.answer != expected.answer {
        let (given, expected) = (given.answer, expected.answer);
        return Err(format!("{given:?}, and the reference {expected:?}"));
    }
    if given.image != expected.image {
        return Err(format!("{:?}, but another image", given.answer));
    }
    if given.journal != expected.journal {
        return Err(format!("{:?}, but another ledger", given.answer));
    }
    Ok(given)
}

/// The answer of both to an install.
fn answer(input: &Input) -> Numbers {
    let outcome = compare(input, Call::Fit);
    outcome.unwrap_or_else(|wrong| panic!("{wrong}")).answer
}

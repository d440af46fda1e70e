//! One call, by the library in watched memory and by the reference.

use crate::arena::{Arena, Layout};
use testing::damage::Input;
use testing::{numbers, Numbers, DONE};

/// Which of the two calls.
#[derive(Clone, Copy, PartialEq, Eq, Debug)]
pub enum Command {
    Fit,
    TakeBack,
}

/// What a call leaves: the answer, image and ledger.
#[derive(Clone, PartialEq, Eq, Debug)]
pub struct Outcome {
    pub answer: Numbers,
    pub image: Vec<u8>,
    pub journal: Vec<u8>,
}

/// A call by the reference.
pub fn reference(input: &Input, command: Command) -> Outcome {
    let (mut image, mut journal) = (input.image.clone(), input.journal.clone());
    let answer = match command {
        Command::Fit => reference::install(&input.object, &input.order, &mut image, &mut journal),
        Command::TakeBack => reference::rollback(&mut image, &mut journal),
    };
    Outcome {
        answer: numbers(answer),
        image,
        journal,
    }
}

/// The library, with memory for its four buffers.
pub struct Library {
    object: Arena,
    order: Arena,
    image: Arena,
    journal: Arena,
    /// All four, one directly behind the other.
    together: Arena,
}

impl Library {
    #[allow(clippy::new_without_default)]
    pub fn new() -> Library {
        Library {
            object: Arena::new(),
            order: Arena::new(),
            image: Arena::new(),
            journal: Arena::new(),
            together: Arena::new(),
        }
    }

    /// A call by the library, or which memory it touched that is not its own.
    pub fn call(
        &mut self,
        input: &Input,
        command: Command,
        layout: Layout,
    ) -> Result<Outcome, String> {
        self.object.fill(&input.object, layout);
        self.order.fill(&input.order, layout);
        self.image.fill(&input.image, layout);
        self.journal.fill(&input.journal, layout);
        let (image, journal) = (self.image.bytes_mut(), self.journal.bytes_mut());
        let answer = match command {
            Command::Fit => aktinoph::fit(self.object.bytes(), self.order.bytes(), image, journal),
            Command::TakeBack => aktinoph::take_back(image, journal),
        };
        let arenas = [&self.object, &self.order, &self.image, &self.journal];
        for (arena, name) in arenas
            .into_iter()
            .zip(["object", "order", "image", "ledger"])
        {
            held(arena.guards_hold(), || {
                format!("bytes beside the {name} changed")
            })?;
        }
        held(self.object.bytes() == input.object, || {
            "the object changed".into()
        })?;
        held(self.order.bytes() == input.order, || {
            "the order changed".into()
        })?;
        Ok(Outcome {
            answer: answer.numbers(),
            image: self.image.bytes().to_vec(),
            journal: self.journal.bytes().to_vec(),
        })
    }

    /// As `call`, with the four buffers in one piece, and the image behind or
    /// before the ledger.
    pub fn call_together(
        &mut self,
        input: &Input,
        command: Command,
        image_first: bool,
    ) -> Result<Outcome, String> {
        let (first, second) = match image_first {
            true => (&input.image, &input.journal),
            false => (&input.journal, &input.image),
        };
        let whole = [&input.object[..], first, second, &input.order].concat();
        self.together.fill(&whole, Layout::Between);
        let (object, rest) = self.together.bytes_mut().split_at_mut(input.object.len());
        let (first, rest) = rest.split_at_mut(first.len());
        let (second, order) = rest.split_at_mut(second.len());
        let (image, journal) = match image_first {
            true => (first, second),
            false => (second, first),
        };
        let answer = match command {
            Command::Fit => aktinoph::fit(object, order, image, journal),
            Command::TakeBack => aktinoph::take_back(image, journal),
        };
        held(object == input.object, || "the object changed".into())?;
        held(order == input.order, || "the order changed".into())?;
        let outcome = Outcome {
            answer: answer.numbers(),
            image: image.to_vec(),
            journal: journal.to_vec(),
        };
        held(self.together.guards_hold(), || {
            "bytes beside the four changed".into()
        })?;
        Ok(outcome)
    }

    /// A call by the reference, and in every layout by the library: what both
    /// leave, or what differs.
    pub fn compare(&mut self, input: &Input, command: Command) -> Result<Outcome, String> {
        let expected = reference(input, command);
        for layout in Layout::ALL {
            let wrong = |what: String| format!("{command:?}, {layout:?}: {what}");
            let given = self.call(input, command, layout).map_err(wrong)?;
            same(input, &given, &expected).map_err(wrong)?;
        }
        for image_first in [true, false] {
            let wrong = |what: String| format!("{command:?}, together, {image_first}: {what}");
            let given = self.call_together(input, command, image_first);
            same(input, &given.map_err(wrong)?, &expected).map_err(wrong)?;
        }
        Ok(expected)
    }
}

pub(crate) fn held(holds: bool, wrong: impl Fn() -> String) -> Result<(), String> {
    match holds {
        true => Ok(()),
        false => Err(wrong()),
    }
}

/// That the library's outcome is the reference's, or what is wrong with it.
fn same(input: &Input, given: &Outcome, expected: &Outcome) -> Result<(), String> {
    let answer = given.answer;
    held(answer == expected.answer, || {
        format!("{answer:?}, and the reference {:?}", expected.answer)
    })?;
    let unchanged = given.image == input.image && given.journal == input.journal;
    held(answer == DONE || unchanged, || {
        format!("{answer:?} changed the image or the ledger")
    })?;
    held(given.image == expected.image, || {
        format!("{answer:?}, but another image")
    })?;
    held(given.journal == expected.journal, || {
        format!("{answer:?}, but another ledger")
    })
}

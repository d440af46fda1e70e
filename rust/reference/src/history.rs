//! "The history behind demand 3": a model of every list of calls. "The history
//! is worked out from the start and the calls alone; after the start it reads
//! nothing from the program's image or ledger."

use crate::checks::judge;
use crate::journal::{Span, MAX_ENTRIES, OLD_BYTES_AT};
use crate::plan::Plan;
use crate::Answer;

/// "At the start it holds a copy of the starting image, the ledger's length and
/// no standing fit."
#[derive(Clone, Debug)]
pub struct History {
    starting_image: Vec<u8>,
    journal_length: usize,
    /// Document 01: the standing fits, oldest first.
    standing: Vec<Plan>,
}

impl History {
    pub fn start(image: &[u8], journal_length: usize) -> History {
        History {
            starting_image: image.to_vec(),
            journal_length,
            standing: Vec::new(),
        }
    }

    /// "the checks are judged in their order from object, order and image
    /// length; 15 uses the history's n, k and ledger length; 1 is never broken"
    pub fn install(&mut self, object: &[u8], order: &[u8]) -> Answer {
        let plan = match judge(object, order, self.starting_image.len()) {
            Ok(plan) => plan,
            Err(refusal) => return refusal,
        };
        let needed = OLD_BYTES_AT as u64 + self.k() + u64::from(plan.span.length);
        if self.n() == MAX_ENTRIES || needed > self.journal_length as u64 {
            return Answer::new(15, 0);
        }
        self.standing.push(plan);
        Answer::DONE
    }

    /// "if no fit stands, the answer is 16, place 0, and nothing changes.
    /// Otherwise the answer is 0, place 0, and the newest fit is dropped."
    pub fn rollback(&mut self) -> Answer {
        match self.standing.pop() {
            Some(_) => Answer::DONE,
            None => Answer::new(16, 0),
        }
    }

    /// "Its n is always the number of its standing fits"
    pub fn n(&self) -> usize {
        self.standing.len()
    }

    /// "its k the sum of their spans' lengths"
    pub fn k(&self) -> u64 {
        self.spans().map(|span| u64::from(span.length)).sum()
    }

    /// The first n entries: "the spans of the standing fits, oldest first".
    pub fn spans(&self) -> impl Iterator<Item = Span> + '_ {
        self.standing.iter().map(|plan| plan.span)
    }

    /// "Its image is the copy with the laid bytes of the standing fits written
    /// over it, oldest first."
    pub fn image(&self) -> Vec<u8> {
        let mut image = self.starting_image.clone();
        for plan in &self.standing {
            plan.lay(&mut image);
        }
        image
    }
}

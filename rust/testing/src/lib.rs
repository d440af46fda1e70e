//! What the tests of the workspace share.

#![forbid(unsafe_code)]

pub mod build;
pub mod commands;
pub mod compared;
pub mod counts;
pub mod damage;
pub mod given;
pub mod jumps;
pub mod limits;
pub mod lists;
pub mod random;
pub mod sample;
pub mod vectors;

use reference::Answer;

/// Number, place and reason of an answer, as the program writes them.
pub type Numbers = (u32, u32, u32);

/// Document 01: "done".
pub const DONE: Numbers = numbers(Answer::DONE);

pub const fn numbers(answer: Answer) -> Numbers {
    (answer.number, answer.place, answer.reason)
}

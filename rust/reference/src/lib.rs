//! A second fitter, written from document 01 and Tickets 1, 3, 5, 7 and 9 of
//! document 02 alone, and kept as close to their sentences as code can be. One
//! body of code is for both classes of object: what differs between them is asked
//! of the class.
//!
//! | part of document 01 | module | checks |
//! |---|---|---|
//! | Ticket 1: the two classes | [`class`] | |
//! | What the object may hold; Ticket 5: e_flags | [`object`] | 4, 5 |
//! | Order, window and ledger | [`order`], [`journal`] | 2, 3; 1, 15, 16 |
//! | Placing | [`placement`] | 6, 7, 8 |
//! | How a record is read: S; Ticket 9: why there is none | [`symbol`] | 10 |
//! | How a record is read: the type table | [`relocation`] | |
//! | How a record is read: halves and fields | [`fields`] | |
//! | How a record is read: instruction forms | [`instruction`] | 11 |
//! | How a record is read: rules and bytes; Tickets 3 and 5: distances | [`relocate`] | 9 to 14 |
//! | The laid bytes and their span | [`plan`] | |
//! | When the fitter says no | [`checks`] | all, in order |
//! | The history behind demand 3 | [`history`] | |
//! | A list of calls, as bytes | [`calls`] | |
//!
//! The words are the field's; the comment at each definition has document
//! 01's term. Quoted sentences in comments are document 01's, or those of
//! Tickets 1, 3, 5, 7 and 9.

#![forbid(unsafe_code)]

pub mod calls;
pub mod checks;
pub mod class;
pub mod fields;
pub mod history;
pub mod instruction;
pub mod journal;
pub mod numbers;
pub mod object;
pub mod order;
pub mod placement;
pub mod plan;
pub mod relocate;
pub mod relocation;
pub mod symbol;

pub use calls::replay;
pub use checks::{install, judge, rollback};
pub use class::Class;
pub use journal::Span;
pub use plan::{Piece, Plan};
pub use symbol::Reason;

/// The longest object or image. Ticket 7: "object and image up to 1,048,576
/// bytes in the library".
pub const MAX_BYTES: usize = 1_048_576;

/// Document 01: number and place. Ticket 9: the reason, "as a second number".
#[derive(Clone, Copy, PartialEq, Eq, Debug)]
pub struct Answer {
    pub number: u32,
    pub place: u32,
    pub reason: u32,
}

impl Answer {
    /// "done", place 0.
    pub const DONE: Answer = Answer::new(0, 0);

    /// "Answer 10 carries it [..]; all other answers carry 0 there".
    pub const fn new(number: u32, place: u32) -> Answer {
        Answer {
            number,
            place,
            reason: 0,
        }
    }

    /// 10: "symbol does not resolve".
    pub const fn unresolved(place: u32, reason: Reason) -> Answer {
        Answer {
            number: 10,
            place,
            reason: reason as u32,
        }
    }
}

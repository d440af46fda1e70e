//! A list of calls as bytes, and the calls made one after the other. Document
//! 01 has lists of calls in demand 3; their bytes are the README's, "each after
//! its u32 count" as in the other formats.

use crate::checks::{install, rollback};
use crate::numbers::Unread;
use crate::Answer;

/// What the list has before an install and before a rollback.
const INSTALL: u32 = 1;
const ROLLBACK: u32 = 2;

/// "A fit in it comes with any object and any order, a taking-back with nothing
/// more."
#[derive(Clone, Copy, PartialEq, Eq, Debug)]
pub enum Call<'a> {
    Install { object: &'a [u8], order: &'a [u8] },
    Rollback,
}

impl Call<'_> {
    fn make(&self, image: &mut [u8], journal: &mut [u8]) -> Answer {
        match self {
            Call::Install { object, order } => install(object, order, image, journal),
            Call::Rollback => rollback(image, journal),
        }
    }
}

/// The calls of a list, or `None` where its bytes are malformed.
pub fn read(list: &[u8]) -> Option<Vec<Call<'_>>> {
    let mut rest = Unread(list);
    let count = rest.next_u32()?;
    // No room is made ahead: the count may be any number.
    let mut calls = Vec::new();
    for _ in 0..count {
        calls.push(rest.next_call()?);
    }
    rest.end()?;
    Some(calls)
}

impl<'a> Unread<'a> {
    fn next_call(&mut self) -> Option<Call<'a>> {
        match self.next_u32()? {
            INSTALL => Some(Call::Install {
                object: self.next_counted_bytes()?,
                order: self.next_counted_bytes()?,
            }),
            ROLLBACK => Some(Call::Rollback),
            _ => None,
        }
    }

    fn next_counted_bytes(&mut self) -> Option<&'a [u8]> {
        let count = self.next_u32()?;
        self.next_bytes(count)
    }
}

/// Makes the calls of a list in their order, also after a refused one, and
/// gives true. The first answers become theirs, and the other ones stay. Where
/// the bytes are malformed, or there are fewer answers than calls, it gives
/// false and changes nothing.
pub fn replay(list: &[u8], image: &mut [u8], journal: &mut [u8], answers: &mut [Answer]) -> bool {
    let Some(calls) = read(list) else {
        return false;
    };
    if answers.len() < calls.len() {
        return false;
    }
    for (call, answer) in calls.iter().zip(answers) {
        *answer = call.make(image, journal);
    }
    true
}

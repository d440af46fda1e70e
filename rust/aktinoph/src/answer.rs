//! What a call answers.

use std::error::Error;
use std::fmt::{self, Display, Formatter};

use crate::reason::Reason;

/// The answer of a call: the first check that fails. The checks run in the order
/// of the cases, but that 4 comes before 2, since the object's header says how
/// the order is to be read.
///
/// A section's number counts section headers, a symbol's number counts entries
/// of the symbol table, and a relocation's number counts from 0 over all RELA
/// sections whose target is allocated, by section and then in file order.
#[derive(Clone, Copy, PartialEq, Eq, Hash, Debug)]
pub enum Answer {
    /// 0: done.
    Done,
    /// 1: the ledger is not sound.
    LedgerUnsound,
    /// 2: the order's bytes are malformed.
    OrderMalformed,
    /// 3: the image is too long, or the window ends above 2^32 (RV64: 2^64).
    WindowBroken,
    /// 4: the ELF header or the object's length is not allowed.
    BadHeader,
    /// 5: the header of this section breaks a rule, or, at 0, the whole table.
    BadSection(u32),
    /// 6: this section is the lowest that is only placed or only allocated.
    PlacementsDiffer(u32),
    /// 7: this symbol is the lowest that has a value in the order and is not
    /// undefined.
    WrongExternal(u32),
    /// 8: this section is misaligned, outside the window, or overlaps a lower
    /// one.
    Misplaced(u32),
    /// 9: this relocation's type, offset, overlap or addend is not allowed; the
    /// types RVC_BRANCH and RVC_JUMP neither, where bit 0 of e_flags is clear.
    RelocationShape(u32),
    /// 10: this relocation's symbol does not resolve, and why.
    SymbolUnresolved(u32, Reason),
    /// 11: this relocation stands at an instruction that its type is not for.
    WrongInstruction(u32),
    /// 12: this PCREL_LO12 relocation has not exactly one PCREL_HI20.
    NotOnePair(u32),
    /// 13: this relocation's distance is odd or too far, or no multiple of 4
    /// where bit 0 of e_flags is clear, or, in an RV64 object, the address of a
    /// HI20 is too far.
    OutOfReach(u32),
    /// 14: this ALIGN relocation's padding does not end on its boundary.
    PaddingOffBoundary(u32),
    /// 15: the ledger has 16 fits, or no room for the old bytes.
    LedgerFull,
    /// 16: no fit stands. Only a taking-back answers this.
    NothingStands,
}

impl Answer {
    /// The answer behind a code, as the exported functions return it and as
    /// [`replay_bytes`](crate::replay_bytes) stores it: the number in the low
    /// eight bits, the reason in the next eight, the place in the upper 32.
    ///
    /// # Panics
    ///
    /// Where it is the code of no answer. The functions' contracts rule that
    /// out, so that such a code is not from this library.
    pub fn from_code(code: u64) -> Answer {
        let place = (code >> 32) as u32;
        // All bits between number and place.
        let reason = code as u32 >> 8;
        let answer = match code as u8 {
            0 => Answer::Done,
            1 => Answer::LedgerUnsound,
            2 => Answer::OrderMalformed,
            3 => Answer::WindowBroken,
            4 => Answer::BadHeader,
            5 => Answer::BadSection(place),
            6 => Answer::PlacementsDiffer(place),
            7 => Answer::WrongExternal(place),
            8 => Answer::Misplaced(place),
            9 => Answer::RelocationShape(place),
            10 => match Reason::from_number(reason) {
                Some(reason) => Answer::SymbolUnresolved(place, reason),
                None => panic!("{code:#x} has a number that is no reason"),
            },
            11 => Answer::WrongInstruction(place),
            12 => Answer::NotOnePair(place),
            13 => Answer::OutOfReach(place),
            14 => Answer::PaddingOffBoundary(place),
            15 => Answer::LedgerFull,
            16 => Answer::NothingStands,
            _ => panic!("{code:#x} is the code of no answer"),
        };
        let (_, own_place, own_reason) = answer.numbers();
        assert_eq!(own_place, place, "{answer:?} has no place");
        assert_eq!(own_reason, reason, "{code:#x} is the code of no answer");
        answer
    }

    /// The answer's number, 0 to 16.
    pub fn number(self) -> u32 {
        match self {
            Answer::Done => 0,
            Answer::LedgerUnsound => 1,
            Answer::OrderMalformed => 2,
            Answer::WindowBroken => 3,
            Answer::BadHeader => 4,
            Answer::BadSection(_) => 5,
            Answer::PlacementsDiffer(_) => 6,
            Answer::WrongExternal(_) => 7,
            Answer::Misplaced(_) => 8,
            Answer::RelocationShape(_) => 9,
            Answer::SymbolUnresolved(..) => 10,
            Answer::WrongInstruction(_) => 11,
            Answer::NotOnePair(_) => 12,
            Answer::OutOfReach(_) => 13,
            Answer::PaddingOffBoundary(_) => 14,
            Answer::LedgerFull => 15,
            Answer::NothingStands => 16,
        }
    }

    /// The answer's place: the number of a section, a symbol or a relocation,
    /// and 0 for answers that have none.
    pub fn place(self) -> u32 {
        match self {
            Answer::BadSection(place)
            | Answer::PlacementsDiffer(place)
            | Answer::WrongExternal(place)
            | Answer::Misplaced(place)
            | Answer::RelocationShape(place)
            | Answer::SymbolUnresolved(place, _)
            | Answer::WrongInstruction(place)
            | Answer::NotOnePair(place)
            | Answer::OutOfReach(place)
            | Answer::PaddingOffBoundary(place) => place,
            _ => 0,
        }
    }

    /// Why a symbol does not resolve; only [`Answer::SymbolUnresolved`] has a
    /// reason.
    pub fn reason(self) -> Option<Reason> {
        match self {
            Answer::SymbolUnresolved(_, reason) => Some(reason),
            _ => None,
        }
    }

    /// Number, place and reason, as the program writes them: an answer without a
    /// reason has 0 there.
    pub fn numbers(self) -> (u32, u32, u32) {
        let reason = self.reason().map_or(0, Reason::number);
        (self.number(), self.place(), reason)
    }

    /// Whether the call was done.
    pub fn is_done(self) -> bool {
        self == Answer::Done
    }

    /// The answer as a result, for `?`.
    pub fn check(self) -> Result<(), Refusal> {
        match self {
            Answer::Done => Ok(()),
            refused => Err(Refusal(refused)),
        }
    }

    /// What is wrong, without the place.
    fn words(self) -> &'static str {
        match self {
            Answer::Done => "done",
            Answer::LedgerUnsound => "the ledger is not sound",
            Answer::OrderMalformed => "the order's bytes are malformed",
            Answer::WindowBroken => {
                "the image is too long, or the window ends above 2^32 (RV64: 2^64)"
            }
            Answer::BadHeader => "the ELF header or the object's length is not allowed",
            Answer::BadSection(0) => "the section header table, or section 0, breaks a rule",
            Answer::BadSection(_) => "the section header breaks a rule",
            Answer::PlacementsDiffer(_) => "only placed, or only allocated",
            Answer::WrongExternal(_) => "a value for a symbol that is not undefined",
            Answer::Misplaced(_) => "misaligned, outside the window, or overlapping",
            Answer::RelocationShape(_) => "type, offset, overlap or addend is not allowed",
            Answer::SymbolUnresolved(_, reason) => reason.words(),
            Answer::WrongInstruction(_) => "not an instruction that the type is for",
            Answer::NotOnePair(_) => "not exactly one PCREL_HI20 for this PCREL_LO12",
            Answer::OutOfReach(_) => {
                "the distance is odd or too far, or no multiple of 4 without compressed instructions"
            }
            Answer::PaddingOffBoundary(_) => "the padding does not end on its boundary",
            Answer::LedgerFull => "the ledger has 16 fits, or no room for the old bytes",
            Answer::NothingStands => "no fit stands",
        }
    }
}

impl Display for Answer {
    fn fmt(&self, f: &mut Formatter<'_>) -> fmt::Result {
        let place = self.place();
        match self {
            Answer::BadSection(0) => {}
            Answer::BadSection(_) | Answer::PlacementsDiffer(_) | Answer::Misplaced(_) => {
                write!(f, "section {place}: ")?
            }
            Answer::WrongExternal(_) => write!(f, "symbol {place}: ")?,
            _ if matches!(self.number(), 9..=14) => write!(f, "relocation {place}: ")?,
            _ => {}
        }
        f.write_str(self.words())
    }
}

/// An answer that is not [`Answer::Done`], as an error.
#[derive(Clone, Copy, PartialEq, Eq, Hash, Debug)]
pub struct Refusal(Answer);

impl Refusal {
    /// Why the call was refused.
    pub fn answer(self) -> Answer {
        self.0
    }
}

impl Display for Refusal {
    fn fmt(&self, f: &mut Formatter<'_>) -> fmt::Result {
        self.0.fmt(f)
    }
}

impl Error for Refusal {}

#[cfg(test)]
mod tests {
    use super::*;

    const RELOCATION_7: u64 = 7 << 32;

    /// Numbers 5 to 14 have a place, and 10 a reason; all others have 0.
    fn code(number: u64) -> u64 {
        match number {
            10 => RELOCATION_7 + 0x300 + number,
            5..=14 => RELOCATION_7 + number,
            _ => number,
        }
    }

    #[test]
    fn every_number() {
        for number in 0..=16 {
            let answer = Answer::from_code(code(number));
            assert_eq!(u64::from(answer.number()), number);
            assert_eq!(u64::from(answer.place()), code(number) >> 32);
            assert_eq!(answer.reason().is_some(), number == 10);
        }
    }

    #[test]
    fn every_reason() {
        for (number, reason) in (1..).zip(Reason::ALL) {
            let answer = Answer::from_code(RELOCATION_7 + (number << 8) + 10);
            assert_eq!(answer, Answer::SymbolUnresolved(7, reason));
            assert_eq!(u64::from(reason.number()), number);
        }
    }

    /// Whether this is the code of no answer.
    fn panics(code: u64) -> bool {
        std::panic::catch_unwind(|| Answer::from_code(code)).is_err()
    }

    /// 10 without a reason and with one above 7; a reason with each other number;
    /// and each bit between reason and place.
    #[test]
    fn reasons_where_there_are_none() {
        for reason in (8..=255).chain([0]) {
            assert!(panics(RELOCATION_7 + (reason << 8) + 10), "{reason}");
        }
        for number in (0..=16).filter(|number| *number != 10) {
            for reason in [1, 2, 7, 8, 128, 255] {
                assert!(panics(code(number) + (reason << 8)), "{number}, {reason}");
            }
        }
        for number in 0..=16 {
            for bit in 16..32 {
                assert!(panics(code(number) | 1 << bit), "{number}, bit {bit}");
            }
        }
    }

    #[test]
    fn places_keep_all_bits() {
        let answer = Answer::from_code(0xFFFF_FFFF_0000_0006);
        assert_eq!(answer, Answer::PlacementsDiffer(u32::MAX));
    }

    #[test]
    #[should_panic(expected = "is the code of no answer")]
    fn a_number_that_is_none() {
        Answer::from_code(17);
    }

    #[test]
    #[should_panic(expected = "is the code of no answer")]
    fn bits_between_number_and_place() {
        Answer::from_code(0x100);
    }

    #[test]
    #[should_panic(expected = "has no place")]
    fn a_place_where_there_is_none() {
        Answer::from_code(RELOCATION_7);
    }
}

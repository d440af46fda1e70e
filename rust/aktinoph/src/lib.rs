//! A safe binding to the proved fitter.
//!
//! [`fit`] lays an RV32 or RV64 ELF object into a memory image, with relocations
//! applied, and records the old bytes in a ledger. [`take_back`] undoes the
//! newest fit that stands. [`replay`] makes a list of such calls, one after the
//! other. Every call is answered, for any bytes of any length, and an
//! [`Answer`] other than [`Answer::Done`] means that image and ledger are as
//! they were, byte for byte.
//!
//! The class is the object's: byte 4 of its file is 1 for RV32 and 2 for RV64.
//! The order is one for that class, with base, addresses and values of four
//! bytes for RV32 and of eight for RV64. The ledger is the same for both, so that
//! fits of both classes can stand in one image.
//!
//! One process at a time may work on an image and its ledger, from reading them
//! until both are stored again: there is no lock, and of two at once one loses
//! its fit without a word.
//!
//! ```
//! # fn main() -> Result<(), Box<dyn std::error::Error>> {
//! let object = std::fs::read("../../objects/clang-switch/clang-switch.o")?;
//! let order = std::fs::read("../../objects/clang-switch/order")?;
//! let laid_by_ld = std::fs::read("../../objects/clang-switch/image")?;
//!
//! let mut image = vec![0xA5; laid_by_ld.len()];
//! let mut ledger = vec![0; aktinoph::LEDGER_HEAD + image.len()];
//!
//! aktinoph::fit(&object, &order, &mut image, &mut ledger).check()?;
//! assert_eq!(image, laid_by_ld);
//!
//! aktinoph::take_back(&mut image, &mut ledger).check()?;
//! assert!(image.iter().all(|byte| *byte == 0xA5));
//!
//! let refused = aktinoph::take_back(&mut image, &mut ledger);
//! assert_eq!(refused, aktinoph::Answer::NothingStands);
//! assert_eq!(refused.to_string(), "no fit stands");
//! # Ok(())
//! # }
//! ```

#![deny(missing_docs)]
#![deny(unsafe_code)]

mod answer;
mod calls;
#[allow(unsafe_code)]
mod ffi;
mod reason;

pub use answer::{Answer, Refusal};
pub use calls::Calls;
pub use reason::Reason;

/// The ledger's bytes before the old bytes. A ledger of this many zero bytes
/// and room for old bytes is one in which no fit stands.
pub const LEDGER_HEAD: usize = 136;

/// The bytes of stack that a call of the library has to find, most of them
/// scratch arrays for as many relocations and symbols as an object may have.
pub const STACK: usize = 524_288;

/// The bytes that an object and an image may have at most. The program takes
/// files of at most 65,536 bytes.
pub const LONGEST: usize = 1_048_576;

/// Lays the object's sections into the image as the order says, and records
/// the old bytes in the ledger. The order is read in the format of the object's
/// class. It never answers [`Answer::NothingStands`].
#[must_use = "a refused fit changes nothing"]
pub fn fit(object: &[u8], order: &[u8], image: &mut [u8], ledger: &mut [u8]) -> Answer {
    Answer::from_code(ffi::fit(object, order, image, ledger))
}

/// Takes the newest standing fit back: writes its old bytes into the image.
/// It answers [`Answer::Done`], [`Answer::LedgerUnsound`],
/// [`Answer::WindowBroken`] for an image that is too long, or
/// [`Answer::NothingStands`].
#[must_use = "a refused taking-back changes nothing"]
pub fn take_back(image: &mut [u8], ledger: &mut [u8]) -> Answer {
    Answer::from_code(ffi::take_back(image, ledger))
}

/// Makes the calls of a list in their order, and gives the answer of each. A
/// refused call changes nothing, and the next one is made all the same.
///
/// ```
/// # fn main() -> Result<(), Box<dyn std::error::Error>> {
/// use aktinoph::{Answer, Calls};
///
/// let object = std::fs::read("../../objects/clang-switch/clang-switch.o")?;
/// let order = std::fs::read("../../objects/clang-switch/order")?;
/// let mut image = vec![0xA5; 1024];
/// let mut ledger = vec![0; aktinoph::LEDGER_HEAD + image.len()];
///
/// let mut calls = Calls::new();
/// calls.fit(&object, &order).take_back().take_back();
/// let answers = aktinoph::replay(&calls, &mut image, &mut ledger);
/// assert_eq!(answers, [Answer::Done, Answer::Done, Answer::NothingStands]);
/// assert!(image.iter().all(|byte| *byte == 0xA5));
/// # Ok(())
/// # }
/// ```
#[must_use = "a refused call changes nothing"]
pub fn replay(calls: &Calls, image: &mut [u8], ledger: &mut [u8]) -> Vec<Answer> {
    let mut answers = vec![0; calls.len()];
    let is_run = replay_bytes(calls.as_bytes(), image, ledger, &mut answers);
    assert!(is_run, "the library ran a list, as its contract says");
    answers.into_iter().map(Answer::from_code).collect()
}

/// [`replay`] of any bytes, which need not be those of a [`Calls`], as the
/// library offers it.
///
/// It gives true where the calls were made: their answers are the codes in the
/// first places of `answers`, which [`Answer::from_code`] reads, and the other
/// places are as they were. It gives false where the bytes are malformed or
/// `answers` has fewer places than the list has calls: then no call was made,
/// and image, ledger and answers are as they were.
///
/// ```
/// use aktinoph::Answer;
///
/// let (mut image, mut ledger) = ([], [0; aktinoph::LEDGER_HEAD]);
/// let mut answers = [99; 2];
/// let take_back = [1, 0, 0, 0, 2, 0, 0, 0];
/// assert!(aktinoph::replay_bytes(&take_back, &mut image, &mut ledger, &mut answers));
/// assert_eq!(Answer::from_code(answers[0]), Answer::NothingStands);
/// assert_eq!(answers[1], 99);
/// assert!(!aktinoph::replay_bytes(&take_back[1..], &mut image, &mut ledger, &mut answers));
/// assert!(!aktinoph::replay_bytes(&take_back, &mut image, &mut ledger, &mut []));
/// ```
#[must_use = "a list that is not run changes nothing"]
pub fn replay_bytes(
    calls: &[u8],
    image: &mut [u8],
    ledger: &mut [u8],
    answers: &mut [u64],
) -> bool {
    ffi::replay(calls, image, ledger, answers) == 1
}

//! The static library beside the reference, call by call: answer, image and
//! ledger are compared, object and order must stay, and the memory around
//! every buffer is watched.

#![deny(unsafe_code)]

#[allow(unsafe_code)]
pub mod arena;
pub mod call;
#[allow(unsafe_code)]
pub mod fault;
pub mod history;
pub mod inputs;
pub mod replay;
#[allow(unsafe_code)]
pub mod stack;

use call::{Command, Library};
use inputs::Pool;
use replay::Replays;
use testing::counts::Counts;
use testing::random::Random;

/// Random calls, histories and lists. A seed stands for one of them.
pub struct Compare {
    library: Library,
    replays: Replays,
    pool: Pool,
    pub fits: Counts,
    pub rollbacks: Counts,
    pub histories: history::Seen,
    pub lists: replay::Seen,
}

impl Compare {
    #[allow(clippy::new_without_default)]
    pub fn new() -> Compare {
        Compare {
            library: Library::new(),
            replays: Replays::new(),
            pool: Pool::new(),
            fits: Counts::default(),
            rollbacks: Counts::default(),
            histories: history::Seen::default(),
            lists: replay::Seen::default(),
        }
    }

    /// One random call by both fitters, or what differs.
    pub fn call(&mut self, seed: u64) -> Result<(), String> {
        let (input, command) = self.pool.input(&mut Random::new(seed));
        let outcome = self.library.compare(&input, command)?;
        let counts = match command {
            Command::Fit => &mut self.fits,
            Command::TakeBack => &mut self.rollbacks,
        };
        counts.add(outcome.answer);
        Ok(())
    }

    /// One random history by both fitters and by the model, or what differs.
    pub fn history(&mut self, seed: u64) -> Result<(), String> {
        let random = &mut Random::new(seed);
        history::play(&mut self.library, random, &mut self.histories)
    }

    /// One random list by both fitters, or what differs.
    pub fn list(&mut self, seed: u64) -> Result<(), String> {
        let random = &mut Random::new(seed);
        replay::play(&mut self.replays, &self.pool, random, &mut self.lists)
    }
}
